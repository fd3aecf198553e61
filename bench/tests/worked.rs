//! The worked bursts of the rule book.

use bench::reference::channel::{Channel, Code, Load, Table, Taps};
use bench::reference::cost::{Cost, Lean};
use bench::reference::listen::listen;
use bench::reference::place::Place;
use bench::reference::receiver::{Receiver, Settled};
use bench::reference::refusal::Refusal;
use bench::reference::sweep::{pin, sweep, Count};

const TEXT: &str = "\
(channel (kind taps) (noise 8) (taps 2 1))
(depth 2)
(place (sample 0 0) (prior 0 0))
(place (sample 0 0) (prior 5 0))
";

const PLACES: [Place; 2] = [
    Place {
        sample: [0, 0],
        priors: [0, 0, 0, 0],
    },
    Place {
        sample: [0, 0],
        priors: [5, 0, 0, 0],
    },
];

fn loaded<C: Channel>(load: Load) -> C {
    let mut channel = C::default();
    channel.load(&load).unwrap();
    channel
}

fn taps(noise: i32, taps: &[i32]) -> Taps {
    loaded(Load::Taps {
        noise,
        taps: taps.to_vec(),
    })
}

/// The burst of all rows, settled.
fn settled(depth: usize) -> Receiver<Taps> {
    let mut receiver = Receiver::new(taps(8, &[2, 1]));
    receiver.set_depth(depth).unwrap();
    for place in PLACES {
        receiver.add(place.sample, place.priors).unwrap();
    }
    assert_eq!(receiver.settle().columns, 4);
    receiver
}

fn costs(receiver: &Receiver<Taps>) -> Vec<u32> {
    let at = |k| (0..2).map(move |a| receiver.cost(k, a).unwrap().number().unwrap());
    (0..receiver.places().len()).flat_map(at).collect()
}

fn shown(receiver: &Receiver<Taps>) -> Vec<u8> {
    let mut list = vec![9; receiver.places().len()];
    receiver.shown(&mut list).unwrap();
    list
}

#[test]
fn printed() {
    let printed = "\
(burst (places 2) (best 7) (columns 4))
(read (at 0) (shown 1) (costs 10 7) (lean 0.375))
(read (at 1) (shown 0) (costs 7 10) (lean -0.375))
";
    assert_eq!(listen(TEXT.as_bytes()), printed);
}

#[test]
fn faults() {
    let listens = |text: &str| listen(text.as_bytes());
    assert_eq!(listens(""), "(fault (line 1) (from text) (number 13))\n");
    let late = "(depth 3)\n(channel (kind taps) (noise 8) (taps 2 1))\nnonsense\n";
    let early = "(fault (line 1) (from receiver) (number 7))\n";
    assert_eq!(listens(late), early);
    let open = &TEXT[..TEXT.len() - 1];
    assert_eq!(listens(open), "(fault (line 4) (from text) (number 12))\n");
}

#[test]
fn most_bytes() {
    let of_length = |length| listen(&vec![b'x'; length]);
    let not_a_form = "(fault (line 1) (from text) (number 12))\n";
    assert_eq!(of_length(16_384), not_a_form);
    let too_long = "(fault (line 1) (from text) (number 14))\n";
    assert_eq!(of_length(16_385), too_long);
}

#[test]
fn numbers() {
    let listens = |prior: &str| {
        let place = format!("(place (sample 0 0) (prior 0 {prior}))\n");
        listen((TEXT.to_string() + &place).as_bytes())
    };
    for wrong in [
        "-0", "00", "01", "+1", "", "-", "10000000", "1 ", " 1", "1)",
    ] {
        let fault = "(fault (line 5) (from text) (number 12))\n";
        assert_eq!(listens(wrong), fault, "{wrong}");
    }
    for wide in ["-1", "65535", "9999999", "-9999999"] {
        let fault = "(fault (line 5) (from receiver) (number 5))\n";
        assert_eq!(listens(wide), fault, "{wide}");
    }
    for right in ["0", "10", "65534", "barred"] {
        assert!(listens(right).starts_with("(burst (places 3)"), "{right}");
    }
}

/// A sample refused comes before priors refused, too many places before both.
#[test]
fn order_of_refusals() {
    let wrong = "(place (sample 0 1) (prior 65535 0))\n";
    let fourth = "(fault (line 5) (from receiver) (number 4))\n";
    assert_eq!(listen((TEXT.to_string() + wrong).as_bytes()), fourth);
    let place = "(place (sample 0 0) (prior 0 0))\n";
    let full = TEXT.to_string() + &place.repeat(126) + wrong;
    let third = "(fault (line 131) (from receiver) (number 3))\n";
    assert_eq!(listen(full.as_bytes()), third);
    let other_kind = TEXT.to_string() + "(channel (kind code) (memory 1) (masks 0 0))\n";
    let twelfth = "(fault (line 5) (from text) (number 12))\n";
    assert_eq!(listen(other_kind.as_bytes()), twelfth);
    let four_priors = "(place (sample 0 0) (prior 0 0 0 0))\n";
    assert_eq!(listen((TEXT.to_string() + four_priors).as_bytes()), twelfth);
    let early = format!("(depth 1)\n{four_priors}");
    let thirteenth = "(fault (line 2) (from text) (number 13))\n";
    assert_eq!(listen(early.as_bytes()), thirteenth);
}

#[test]
fn both_depths() {
    assert_eq!(costs(&settled(2)), [10, 7, 7, 10]);
    assert_eq!(costs(&settled(1)), [15, 7, 7, 10]);
    assert_eq!(shown(&settled(1)), [1, 0]);
}

#[test]
fn retaken() {
    let mut receiver = settled(2);
    receiver.retake(1, [1, 0]).unwrap();
    assert_eq!(receiver.marks(), (1, 2));
    assert_eq!(receiver.settle().columns, 3);
    assert_eq!(costs(&receiver), [9, 5, 10, 5]);
    assert_eq!(shown(&receiver), [1, 1]);
    for (depth, columns) in [(2, 3), (1, 4)] {
        let mut receiver = settled(depth);
        receiver.retake(0, [0, 0]).unwrap();
        assert_eq!(receiver.settle().columns, columns);
    }
}

fn counted(places: &[Place]) -> [u16; 4] {
    let (mut forward, mut backward, mut answers) = ([0; 6], [0; 6], [0; 4]);
    let channel = taps(8, &[2, 1]);
    sweep::<Count, _>(&channel, places, &mut forward, &mut backward, &mut answers).unwrap();
    answers
}

#[test]
fn counts() {
    let mut places = PLACES;
    assert_eq!(counted(&places), [2, 2, 2, 2]);
    pin::<Taps>(&mut places, 0, 1).unwrap();
    assert_eq!(counted(&places), [0, 2, 1, 1]);
    assert_eq!(pin::<Taps>(&mut places, 0, 0), Err(Refusal::Priors));
    assert_eq!(pin::<Taps>(&mut places, 0, 2), Err(Refusal::Value));
    assert_eq!(pin::<Taps>(&mut places, 2, 2), Err(Refusal::Place));
}

#[test]
fn counts_stop_at_65_535() {
    let channel = taps(8, &[2, 1]);
    let places = [PLACES[0]; 20];
    let (mut forward, mut backward, mut answers) = ([0; 42], [0; 42], [0; 40]);
    sweep::<Count, _>(&channel, &places, &mut forward, &mut backward, &mut answers).unwrap();
    assert_eq!(forward[16 * 2], 32_768);
    assert_eq!(forward[17 * 2], 65_535);
    assert_eq!(answers, [65_535; 40]);
}

#[test]
fn distances() {
    let cost = |noise, first| taps(noise, &[0]).cost([first, 0], 0).number();
    assert_eq!(cost(10, 3), Some(7));
    assert_eq!(cost(1, 90), Some(64_800));
    assert_eq!(cost(1, 91), Some(65_535));
    assert_eq!(taps(1, &[0]).cost([0, 1], 0), Cost::BARRED);
    assert_eq!(taps(1, &[0]).cost([0, 0], 2), Cost::BARRED);
    assert_eq!(Table::default().cost([1, 2], 3).number(), Some(5));
}

#[test]
fn coded() {
    let code: Code = loaded(Load::Code {
        memory: 3,
        masks: [7, 5],
    });
    assert_eq!(code.cost([4, -6], 3).number(), Some(10));
}

#[test]
fn leans() {
    let printed = |eighths| Lean::Eighths(eighths).to_string();
    assert_eq!(printed(-8), "-1.000");
    assert_eq!(printed(13), "1.625");
    assert_eq!(printed(-3), "-0.375");
    assert_eq!(printed(0), "0.000");
}

#[test]
fn eight_taps() {
    let mut receiver = Receiver::new(taps(8, &[1; 8]));
    assert_eq!(receiver.depth(), 5);
    assert_eq!(receiver.set_depth(5), Ok(()));
    assert_eq!(receiver.set_depth(6), Err(Refusal::Depth));
}

#[test]
fn most_places() {
    let mut receiver = Receiver::new(taps(8, &[2, 1]));
    for _ in 0..128 {
        assert_eq!(receiver.add([0, 0], [0; 4]), Ok(()));
    }
    assert_eq!(receiver.add([0, 0], [0; 4]), Err(Refusal::Full));
}

#[test]
fn no_places() {
    let mut receiver = Receiver::new(taps(8, &[2, 1]));
    let settled = Settled {
        columns: 0,
        best: Some(0),
    };
    assert_eq!(receiver.settle(), settled);
    assert_eq!(receiver.cost(0, 0), Err(Refusal::Place));
}

/// Cut to no places, a receiver without a best has one again, unsettled.
#[test]
fn cut_to_nothing() {
    let mut receiver = Receiver::new(loaded::<Table>(Load::Table {
        noise: 8,
        memory: 1,
        entries: vec![None; 4],
    }));
    receiver.add([0, 0], [0; 4]).unwrap();
    assert_eq!(receiver.settle().best, None);
    assert_eq!(receiver.shown(&mut [0; 4]), Err(Refusal::Dead));
    receiver.cut(1).unwrap();
    assert_eq!(receiver.marks(), (0, 0));
    assert_eq!(receiver.shown(&mut []), Ok(()));
}
