//! Laws of burst text: what is read, what is written, and what is left alone.

use super::agree;
use crate::generate::{self, Random};
use crate::reference::channel::{Channel, Code, Kind, Table, Taps};
use crate::reference::listen::listen;
use crate::reference::receiver::Receiver;
use crate::reference::refusal::{Layer, Refusal};
use crate::reference::text::{find_kind, read, text, write, Line};
use crate::subject::FILL;

/// Checks the texts of a seed and answers the number of the damaged one's
/// fault, or 0.
pub fn check(seed: u64) -> Result<u8, String> {
    let mut random = Random::new(seed);
    let kind = random.pick(&Kind::ALL);
    let lines = generate::right_lines(&mut random, kind, 128);
    check_right(&lines)?;

    let bytes = generate::text(&mut random, kind, 128);
    let found = find_kind(&bytes);
    for kind in Kind::ALL {
        match kind {
            Kind::Taps => check_any::<Taps>(&mut random, &bytes)?,
            Kind::Table => check_any::<Table>(&mut random, &bytes)?,
            Kind::Code => check_any::<Code>(&mut random, &bytes)?,
        }
    }
    let printed = listen(&bytes);
    agree!(printed.ends_with('\n'), true, "the end of what is printed");
    let fault = match found {
        Err(fault) => Some(fault),
        Ok(Kind::Taps) => read(&mut Receiver::new(Taps::default()), &bytes).err(),
        Ok(Kind::Table) => read(&mut Receiver::new(Table::default()), &bytes).err(),
        Ok(Kind::Code) => read(&mut Receiver::new(Code::default()), &bytes).err(),
    };
    match fault {
        Some(fault) => agree!(printed, format!("{fault}\n"), "fault"),
        None => agree!(printed.starts_with("(burst (places "), true, "{printed}"),
    }
    Ok(fault.map_or(0, |fault| fault.refusal.number()))
}

fn written(lines: &[Line]) -> String {
    lines.iter().map(Line::to_string).collect()
}

fn check_right(lines: &[Line]) -> Result<(), String> {
    for line in lines {
        let parsed = Line::parse(line.to_string().as_bytes());
        agree!(parsed.as_ref(), Some(line), "parsed");
    }
    let mut in_order = lines.to_vec();
    if let Line::Depth(_) = lines[0] {
        in_order.swap(0, 1);
    }
    let (bytes, in_order) = (written(lines), written(&in_order));
    match find_kind(bytes.as_bytes()) {
        Ok(Kind::Taps) => check_accepted::<Taps>(&bytes, &in_order),
        Ok(Kind::Table) => check_accepted::<Table>(&bytes, &in_order),
        Ok(Kind::Code) => check_accepted::<Code>(&bytes, &in_order),
        Err(fault) => Err(format!("{fault} in a right text:\n{bytes}")),
    }
}

/// A right text is written again with its channel line first.
fn check_accepted<C: Channel>(bytes: &str, in_order: &str) -> Result<(), String> {
    let mut receiver = Receiver::new(C::default());
    agree!(read(&mut receiver, bytes.as_bytes()), Ok(()), "{bytes}");
    let count = receiver.places().len();
    agree!(receiver.marks(), (0, count), "marks");
    agree!(bytes.lines().count(), 2 + count, "places");
    agree!(text(&receiver), in_order, "written again");

    let length = in_order.len();
    let mut list = vec![FILL; length - 1];
    let short = write(&receiver, &mut list);
    agree!(short, Err(Refusal::Short), "a list too short");
    agree!(list, vec![FILL; length - 1], "a list too short");
    let mut list = vec![FILL; length + 3];
    agree!(write(&receiver, &mut list), Ok(length), "length");
    agree!(list[..length], *in_order.as_bytes(), "list");
    agree!(list[length..], [FILL; 3], "the rest of the list");

    let mut again = Receiver::new(C::default());
    agree!(read(&mut again, &list[..length]), Ok(()), "{in_order}");
    again.settle();
    receiver.settle();
    if receiver != again {
        return Err(format!("reads back as another receiver:\n{in_order}"));
    }
    Ok(())
}

/// Any text, read into a worked receiver of any kind.
fn check_any<C: Channel>(random: &mut Random, bytes: &[u8]) -> Result<(), String> {
    let shown = || String::from_utf8_lossy(bytes);
    let mut channel = C::default();
    let load = generate::load(random, C::KIND);
    agree!(channel.load(&load), Ok(()), "a right load");
    let mut receiver = Receiver::new(channel);
    for place in generate::burst_of(random, load, 3).places {
        agree!(receiver.add(place.sample, place.priors), Ok(()), "add");
    }
    receiver.settle();
    let before = receiver.clone();
    match (find_kind(bytes), read(&mut receiver, bytes)) {
        (Ok(kind), Ok(())) => {
            agree!(kind, C::KIND, "kind of {}", shown());
            let mut lines: Vec<&[u8]> = bytes.split_inclusive(|&byte| byte == b'\n').collect();
            if lines[0].starts_with(b"(depth") {
                lines.swap(0, 1);
            }
            agree!(text(&receiver).into_bytes(), lines.concat(), "{}", shown());
            agree!(receiver.marks(), (0, lines.len() - 2), "{}", shown());
            Ok(())
        }
        (Ok(kind), Err(fault)) => {
            if kind != C::KIND {
                let wanted = (Layer::Text, Refusal::Form);
                agree!((fault.layer, fault.refusal), wanted, "{}", shown());
                let line = bytes
                    .split_inclusive(|&byte| byte == b'\n')
                    .nth(fault.line - 1);
                let is_channel = line.is_some_and(|line| line.starts_with(b"(channel"));
                agree!(is_channel, true, "{}", shown());
            }
            agree!(receiver == before, true, "left alone: {}", shown());
            Ok(())
        }
        (Err(found), result) => {
            agree!(result, Err(found), "{}", shown());
            agree!(receiver == before, true, "left alone: {}", shown());
            Ok(())
        }
    }
}
