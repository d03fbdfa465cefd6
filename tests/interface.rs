//! Calls every wrapper of examples/cabinet/hemtaluq.rs, once for each kind of answer. The expected answers are written from the scope document.
#[path = "../examples/cabinet/hemtaluq.rs"]
mod hemtaluq;

use hemtaluq::{Confirmed, Counts, Fault, Quote, Watcher, Weighed};

const PLANT_A: [u8; 20] = [2, 2, 2, 2, 0x06, 1, 0, 0x1B, 1, 0, 1, 2, 2, 0x0A, 1, 0, 0x07, 1, 0, 1];
const PLANT_B: [u8; 20] = [2, 2, 2, 2, 0x06, 1, 0, 0x0B, 1, 0, 1, 2, 2, 0x0A, 1, 0, 0x07, 1, 0, 1];
// A ring of three rows, and one of two.
const RINGS: [u8; 19] = [2, 0, 3, 3, 2, 1, 3, 1, 2, 3, 2, 0, 2, 2, 2, 1, 3, 1, 0];
// The list that says plant A.
const LIST_A: [u16; 30] = [2, 2, 2, 2, 0, 1, 1, 0, 0, 0, 1, 0, 2, 1, 1, 0, 2, 2, 0, 1, 2, 0, 0, 0, 1, 0, 1, 1, 0, 0];
// A row that takes type 1 and sends type 0, and the list that says it.
const BOTH: [u8; 7] = [1, 2, 1, 1, 0x0C, 0, 1];
const LIST_BOTH: [u16; 10] = [1, 2, 1, 1, 0, 0, 3, 1, 0, 0];

fn fault(number: u8, place: usize) -> Fault {
    Fault { number, place }
}

/// The longest list that says a plant. No state can be left out: the first row leaves state 1, and each row another than the one before it.
fn longest_list() -> Vec<u16> {
    let mut list = vec![16, 64];
    for _ in 0..16 {
        list.extend_from_slice(&[64, 64]);
        (0..64).for_each(|k| list.extend_from_slice(&[(k + 1) % 64, (k + 2) % 64, 3, k, 0, 63 - k]));
    }
    list
}

fn writing() {
    assert_eq!(hemtaluq::write(&LIST_A), Ok(PLANT_A.to_vec()));
    assert_eq!(hemtaluq::write(&[]), Err(fault(23, 0)));
    assert_eq!(hemtaluq::write(&LIST_A[..29]), Err(fault(23, 29)));
    assert_eq!(hemtaluq::write(&LIST_BOTH), Ok(BOTH.to_vec()));
    assert_eq!(hemtaluq::write(&LIST_BOTH[..9]), Err(fault(23, 9)));
    assert_eq!(hemtaluq::write(&[1, 0, 1, 0, 0]), Err(fault(23, 4)));
    assert_eq!(hemtaluq::write(&[1, 0, 2, 1, 0, 2, 0, 0, 0, 0]), Err(fault(24, 5)));
    assert_eq!(hemtaluq::write(&[1, 2, 1, 1, 0, 0, 4, 1, 0, 0]), Err(fault(24, 6)));
    assert_eq!(hemtaluq::write(&[1, 2, 1, 1, 0, 0, 2, 1, 0, 1]), Err(fault(24, 9)));
    assert_eq!(hemtaluq::write(&[1, 0, 2, 3, 0, 1, 0, 0, 0, 0, 1, 0, 0, 0, 0, 0, 0, 1, 0, 0, 0, 0]), Err(fault(26, 16)));
    let mut out = [7; 22];
    assert_eq!(hemtaluq::write_into(&LIST_A, &mut out[..19]), Err(fault(25, 0)));
    assert_eq!(out, [7; 22]);
    assert_eq!(hemtaluq::write_into(&LIST_A, &mut out), Ok(20));
    assert_eq!((&out[..20], &out[20..]), (&PLANT_A[..], &[7, 7][..]));
    let longest = longest_list();
    assert_eq!(longest.len(), hemtaluq::LONGEST_LIST);
    let file = hemtaluq::write(&longest).expect("the longest list is written");
    assert_eq!(file.len(), hemtaluq::LONGEST_FILE);
    assert_eq!(hemtaluq::read(&file), Ok(Counts { machines: 16, types: 64, rows: 1024 }));
}

fn watching() {
    let mut watcher = Watcher::open(&PLANT_A, &[2, 1], &[3, 4]).expect("weights 2, 1 pass");
    assert_eq!(watcher.left(), 30);
    assert_eq!(watcher.row(0), Ok(29));
    assert_eq!(watcher.row(0), Err(fault(27, 0)));
    assert_eq!(watcher.row(4), Err(fault(27, 0)));
    assert_eq!(watcher.row(u32::MAX), Err(fault(27, 0)));
    assert_eq!(watcher.left(), 29);
    assert_eq!(watcher.row(1), Ok(38));
    assert_eq!(watcher.doubling(0), Ok(42));
    assert_eq!(watcher.loss(2), Err(fault(28, 0)));
    assert_eq!(watcher.doubling(2), Err(fault(28, 0)));
    // A clone goes its own way.
    let mut second = watcher.clone();
    (0..3).for_each(|_| assert_eq!(second.loss(1), Ok(42)));
    assert_eq!(second.loss(1), Err(fault(28, 0)));
    assert_eq!(second.doubling(1), Err(fault(28, 0)));
    assert_eq!(second.row(0), Ok(41));
    assert_eq!(second.row(1), Err(fault(27, 0)));
    assert_eq!((watcher.left(), second.left()), (42, 41));
    assert_eq!(watcher.row(0), Ok(41));
    assert_eq!(watcher.row(1), Ok(50));
    assert_eq!(format!("{watcher:?}"), "Watcher { left: 50, .. }");
}

/// The faults of an opening are those of a quote.
fn opening() {
    let refused = |file: &[u8], weights: &[u16], contents: &[u32]| Watcher::open(file, weights, contents).expect_err("it is refused");
    assert_eq!(refused(&[], &[], &[]), fault(1, 0));
    assert_eq!(refused(&PLANT_A[..19], &[2, 1], &[3, 4]), fault(1, 19));
    assert_eq!(refused(&PLANT_A, &[2], &[3, 4]), fault(9, 0));
    assert_eq!(refused(&PLANT_A, &[2, 1001], &[3, 4]), fault(10, 1));
    assert_eq!(refused(&PLANT_A, &[2, 1], &[3, 4, 5]), fault(20, 0));
    assert_eq!(refused(&PLANT_A, &[2, 1], &[1_000_001, 4]), fault(21, 0));
    assert_eq!(refused(&PLANT_A, &[1, 1], &[3, 4]), fault(22, 0));
    assert_eq!(Watcher::open(&[1, 0, 1, 0], &[], &[]).expect("nothing is quiet").left(), 0);
}

/// 1,000,000 progress rows of one state, and 1,000,000 doublings.
fn watching_limits() {
    let mut watcher = Watcher::open(&[1, 1, 1, 1, 0x10], &[2], &[1]).expect("no row is quiet");
    // F is 0, n 1, w 2 and W 2; G is 2.
    (1..=1_000_000).for_each(|k| assert_eq!(watcher.row(0), Ok(2 + 2 * k)));
    assert_eq!(watcher.row(0), Err(fault(29, 0)));
    (1..=1_000_000).for_each(|k| assert_eq!(watcher.doubling(0), Ok(2_000_002 + 2 * k)));
    assert_eq!(watcher.doubling(0), Err(fault(29, 0)));
    assert_eq!(watcher.loss(0), Ok(4_000_002));
}

fn main() {
    assert_eq!(hemtaluq::VERSION, 7);
    assert_eq!(hemtaluq::version(), hemtaluq::VERSION);
    assert_eq!(fault(22, 0).in_words(), "the weights do not pass");
    assert_eq!(fault(26, 0).in_words(), "a row is equal to an earlier row of its machine");
    assert_eq!(fault(29, 0).in_words(), "1,000,000 of its sort were counted, and no more are");
    assert_eq!(hemtaluq::read(&[1, 3, 1, 2, 0, 16]), Ok(Counts { machines: 1, types: 3, rows: 2 }));
    assert_eq!(hemtaluq::read(&[1, 3, 1, 3, 0, 16, 1, 0]), Err(fault(26, 6)));
    assert_eq!(hemtaluq::read(&PLANT_A[..7]), Err(fault(1, 7)));
    assert_eq!(hemtaluq::read(&BOTH), Ok(Counts { machines: 1, types: 2, rows: 1 }));
    assert_eq!(hemtaluq::confirm(&BOTH, &[0, 1, 1, 0]), Ok(Confirmed::Negative { message_type: 1, sum: -1 }));
    assert_eq!(hemtaluq::weigh(&BOTH, &[0, 1]), Ok(Weighed::Passed { base: 0, most_states: 1, per_progress: 1, per_doubling: 1 }));
    assert_eq!(hemtaluq::weigh(&PLANT_A, &[2, 1]), Ok(Weighed::Passed { base: 10, most_states: 2, per_progress: 9, per_doubling: 4 }));
    let shown = hemtaluq::weigh(&PLANT_A, &[1, 1]);
    assert!(shown == Ok(Weighed::Cycle(vec![2, 3])) || shown == Ok(Weighed::Cycle(vec![3, 2])));
    let shortest = hemtaluq::weigh(&RINGS, &[]);
    assert!(shortest == Ok(Weighed::Cycle(vec![3, 4])) || shortest == Ok(Weighed::Cycle(vec![4, 3])));
    assert_eq!(hemtaluq::weigh(&PLANT_A, &[2, 1001]), Err(fault(10, 1)));
    assert_eq!(hemtaluq::quote(&PLANT_A, &[2, 1], &[3, 4], 1, 0), Ok(Quote { ceiling: 39, price_class: 6 }));
    assert_eq!(hemtaluq::quote(&PLANT_A, &[2, 1], &[3, 4], 1, 3), Ok(Quote { ceiling: 51, price_class: 6 }));
    assert_eq!(hemtaluq::quote(&PLANT_A, &[2, 1], &[3, 4], 1_000_001, 1_000_001), Err(fault(21, 2)));
    assert_eq!(hemtaluq::quote(&PLANT_A, &[2, 1], &[3, 4], 1, 1_000_001), Err(fault(21, 3)));
    let mut out = [7; 5];
    assert_eq!(hemtaluq::list(&PLANT_A, 1, &mut out[..2]), Err(fault(14, 0)));
    assert_eq!(hemtaluq::list(&PLANT_A, 1, &mut out), Ok(3));
    assert_eq!(out, [2, 2, 3, 7, 7]);
    let both = [0, 1, 2, 0, 1, 1, 1, 2, 2, 3];
    assert_eq!(hemtaluq::confirm(&PLANT_B, &both), Ok(Confirmed::Balanced));
    assert_eq!(hemtaluq::confirm(&PLANT_B, &both[..5]), Ok(Confirmed::Negative { message_type: 1, sum: -1 }));
    assert_eq!(hemtaluq::confirm(&PLANT_B, &both[..4]), Err(fault(15, 4)));
    writing();
    watching();
    opening();
    watching_limits();
}
