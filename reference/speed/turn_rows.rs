//! Taking turns: what is timed of it, calls of each kind.

use crate::cases::Numbers;
use crate::library;
use crate::timing::medians;
use idiomatic_native as native;
use idiomatic_plain as plain;

/// The calls of a row: few enough that the processor keeps what they are lent at hand.
pub const CALLS: usize = 256;

/// The weights of the groups, which stay from call to call.
const WEIGHTS: [u64; 8] = [3, 1, 4, 1, 5, 9, 2, 16];

/// A row of the table: nanoseconds a call by the library, by idiomatic Rust with -O and by the same for this processor.
pub struct TurnRow {
    pub name: &'static str,
    pub times: [f64; 3],
}

/// The waiting counts and the turn that a call is lent.
type Lent = ([u32; 8], [u64; 2]);

/// What calls are lent, or what they leave there, and the codes that they gave.
#[derive(Clone, PartialEq)]
struct Calls {
    lent: Vec<Lent>,
    codes: Vec<u8>,
}

impl Calls {
    /// Make the calls by one variant, which is called directly, each on a copy of what it was first lent; copying this
    /// is a part of the time.
    fn make(&mut self, first: &[Lent], next_fold: impl Fn(&[u64], &mut [u32], &mut [u64]) -> u8) {
        for ((lent, code), first) in self.lent.iter_mut().zip(&mut self.codes).zip(first) {
            *lent = *first;
            *code = next_fold(&WEIGHTS, &mut lent.0, &mut lent.1);
        }
    }
}

/// Counts, of which each is 0 with this chance in eight, and a group with its weight.
fn drawn(numbers: &mut Numbers, idle: u64) -> ([u32; 8], u64, u64) {
    let waiting = [0; 8].map(|_| if numbers.next() % 8 < idle { 0 } else { 1 + (numbers.next() % 1000) as u32 });
    let group = 1 + numbers.next() % 8;
    (waiting, group, WEIGHTS[group as usize - 1])
}

/// The turn goes on.
fn going_on(numbers: &mut Numbers) -> Lent {
    let (mut waiting, group, weight) = drawn(numbers, 4);
    waiting[group as usize - 1] += 1;
    (waiting, [group, numbers.next() % weight])
}

/// The turn is over, and all wait.
fn passing_on(numbers: &mut Numbers) -> Lent {
    let (waiting, group, weight) = drawn(numbers, 0);
    (waiting, [group, weight])
}

/// The turn is over, and its group alone waits.
fn coming_round(numbers: &mut Numbers) -> Lent {
    let (mut waiting, group, weight) = drawn(numbers, 8);
    waiting[group as usize - 1] = 1;
    (waiting, [group, weight])
}

/// Nobody waits.
fn nobody(numbers: &mut Numbers) -> Lent {
    let (waiting, group, weight) = drawn(numbers, 8);
    (waiting, [group, numbers.next() % (weight + 1)])
}

/// The used folds are above the weight by one.
fn refused(numbers: &mut Numbers) -> Lent {
    let (waiting, group, weight) = drawn(numbers, 4);
    (waiting, [group, weight + 1])
}

/// Any of these, with from none to all groups waiting.
fn random(numbers: &mut Numbers) -> Lent {
    let idle = numbers.next() % 9;
    let (waiting, group, weight) = drawn(numbers, idle);
    (waiting, [group, numbers.next() % (weight + 2)])
}

/// Times calls of a kind by the three variants, which take turns. What they leave must be equal, with these codes and
/// no others.
fn row(name: &'static str, kind: fn(&mut Numbers) -> Lent, expected: &[u8]) -> TurnRow {
    let mut numbers = Numbers(2024_1964);
    let first: Vec<Lent> = (0..CALLS).map(|_| kind(&mut numbers)).collect();
    let before = Calls { lent: first.clone(), codes: vec![0; CALLS] };
    let (mut by_library, mut by_plain, mut by_native) = (before.clone(), before.clone(), before);
    let mut turns: Vec<Box<dyn FnMut() + '_>> = vec![
        Box::new(|| by_library.make(&first, library::next_fold)),
        Box::new(|| by_plain.make(&first, plain::next_fold)),
        Box::new(|| by_native.make(&first, native::next_fold)),
    ];
    let times = medians(&mut turns);
    drop(turns);
    assert!(by_library == by_plain && by_plain == by_native, "{name}: the outputs are equal");
    let mut codes = by_library.codes;
    codes.sort();
    codes.dedup();
    assert_eq!(codes, expected, "{name}: the codes");
    TurnRow { name, times: [times[0], times[1], times[2]].map(|time| time / CALLS as f64) }
}

/// The rows of the table.
pub fn turn_rows() -> [TurnRow; 6] {
    [
        row("goes on", going_on, &[0]),
        row("passes on", passing_on, &[0]),
        row("comes round", coming_round, &[0]),
        row("none", nobody, &[104]),
        row("refused", refused, &[20]),
        row("random", random, &[0, 20, 104]),
    ]
}
