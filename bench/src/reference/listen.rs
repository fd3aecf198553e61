//! What the program `listen` prints.

use std::fmt::Write;

use super::channel::{Channel, Code, Kind, Table, Taps};
use super::receiver::Receiver;
use super::refusal::{Fault, Refusal};
use super::text::{find_kind, read};

/// The printed answer to a text.
pub fn listen(text: &[u8]) -> String {
    answer(text).unwrap_or_else(|fault| format!("{fault}\n"))
}

fn answer(text: &[u8]) -> Result<String, Fault> {
    match find_kind(text)? {
        Kind::Taps => heard::<Taps>(text),
        Kind::Table => heard::<Table>(text),
        Kind::Code => heard::<Code>(text),
    }
}

fn heard<C: Channel>(text: &[u8]) -> Result<String, Fault> {
    let mut receiver = Receiver::new(C::default());
    read(&mut receiver, text)?;
    Ok(report(&mut receiver).expect("a settled receiver answers"))
}

/// Settles a receiver and prints what it found.
fn report<C: Channel>(receiver: &mut Receiver<C>) -> Result<String, Refusal> {
    let settled = receiver.settle();
    let (places, columns) = (receiver.places().len(), settled.columns);
    let Some(best) = settled.best else {
        return Ok(format!(
            "(burst (places {places}) (dead) (columns {columns}))\n"
        ));
    };
    let mut shown = vec![0; places];
    receiver.shown(&mut shown)?;
    let mut out = format!("(burst (places {places}) (best {best}) (columns {columns}))\n");
    for (k, symbol) in shown.iter().enumerate() {
        write!(out, "(read (at {k}) (shown {symbol}) (costs").expect("strings grow");
        for a in 0..C::VALUES {
            write!(out, " {}", receiver.cost(k, a)?).expect("strings grow");
        }
        out.push_str(") (lean");
        for i in 1..C::VALUES {
            write!(out, " {}", receiver.lean(k, i)?).expect("strings grow");
        }
        out.push_str("))\n");
    }
    Ok(out)
}
