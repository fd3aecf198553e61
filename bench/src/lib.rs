//! A plain implementation of the rule book, random bursts to try it on, and
//! checks of its laws. The yardstick for the product's answers and speed.

pub mod check;
pub mod generate;
pub mod reference;
pub mod subject;
