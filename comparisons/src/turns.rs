//! Calls of the turns, good and bad ones, made by the static library and by the reference; runs of calls with arrivals
//! between them, and how long the groups wait in them.

use crate::calls::{guarded, lent};
use crate::seed::{below, once_in, pick, seed};
use lova::Refusal;
use reference::rng::Rng;
use reference::turns::{next_fold, place, Next, GREATEST_WEIGHT, GROUPS};

/// Numbers past the ends of all ranges; the low parts of some are within them.
const FAR: [u64; 13] = [
    0, 17, 18, 32, 255, 256, 257, 1 << 32, (1 << 32) + 1, (1 << 32) + 8, (1 << 63) + 1, u64::MAX - 1, u64::MAX,
];

/// A call: what is lent to it.
#[derive(Clone, Debug, PartialEq, Eq)]
pub struct Call {
    pub weights: Vec<u64>,
    pub waiting: Vec<u32>,
    pub turn: Vec<u64>,
}

/// The answer in the reference's words.
fn answered(answer: Result<Option<u64>, Refusal>) -> Next {
    match answer {
        Ok(Some(group)) => Next::Group(group),
        Ok(None) => Next::None,
        Err(refusal) => Next::Refused(refusal.number().into()),
    }
}

impl Call {
    /// The same call with guards around what is written.
    fn guarded(&self) -> Call {
        Call { weights: self.weights.clone(), waiting: guarded(&self.waiting, 3), turn: guarded(&self.turn, 5) }
    }

    /// The folds used and the weight of the turn's group, where there is such a group.
    pub fn used_of_weight(&self) -> Option<(u64, u64)> {
        let weight = usize::try_from(self.turn[0]).ok().and_then(|group| self.weights.get(group.checked_sub(1)?));
        weight.map(|weight| (self.turn[1], *weight))
    }

    /// Make the call both ways, and go on to what it leaves. The answers must be equal, and so must all that the
    /// counts, the turn and their guards hold afterwards; without a group that is what they held before.
    pub fn take(&mut self) -> Next {
        let (mut ours, mut theirs) = (self.guarded(), self.guarded());
        let answer = answered(lova::write_next_fold(&self.weights, lent(&mut ours.waiting), lent(&mut ours.turn)));
        let expected = next_fold(&self.weights, lent(&mut theirs.waiting), lent(&mut theirs.turn));
        assert_eq!(answer, expected, "seed {}: {self:?}", seed());
        assert_eq!(ours, theirs, "seed {}: what {self:?} leaves", seed());
        let kept = ours == self.guarded();
        assert!(matches!(answer, Next::Group(_)) || kept, "seed {}: {answer:?}, and yet {self:?} was written", seed());
        self.compare_record(answer, &ours);
        self.waiting.copy_from_slice(lent(&mut ours.waiting));
        self.turn.copy_from_slice(lent(&mut ours.turn));
        answer
    }

    /// Where the lengths fit, ask that the call with arrays and a record answers and leaves the same, here with guards.
    fn compare_record(&self, answer: Next, left: &Call) {
        let (weights, waiting) = (self.weights[..].try_into(), self.waiting[..].try_into());
        let (Ok(weights), Ok(mut waiting), [group, used]) = (weights, waiting, &self.turn[..]) else { return };
        let mut turn = lova::Turn { group: *group, used: *used };
        let own = answered(lova::next_fold(weights, &mut waiting, &mut turn));
        let own_left = Call { weights: weights.to_vec(), waiting: waiting.to_vec(), turn: vec![turn.group, turn.used] };
        assert_eq!((own, &own_left.guarded()), (answer, left), "seed {}: {self:?} with a record", seed());
    }
}

/// Weights within the range; both ends are frequent.
pub fn weights(rng: &mut Rng) -> Vec<u64> {
    let top = pick(rng, &[1, 2, GREATEST_WEIGHT, GREATEST_WEIGHT]);
    let weight = |_| {
        let any = rng.between(1, top.into()) as u64;
        pick(rng, &[1, GREATEST_WEIGHT, any, any, any, any])
    };
    (0..GROUPS).map(weight).collect()
}

/// A turn that these weights allow; used folds of 0, at the weight and one below it are frequent.
pub fn turn(rng: &mut Rng, weights: &[u64]) -> Vec<u64> {
    let group = rng.between(1, GROUPS.into()) as u64;
    let weight = weights[place(group)];
    let used = rng.between(0, weight.into()) as u64;
    vec![group, pick(rng, &[0, weight, weight, weight - 1, used])]
}

/// The count of a group that waits; one fold, powers of two and as many folds as can be are frequent.
pub fn count(rng: &mut Rng) -> u32 {
    let any = rng.between(1, u32::MAX.into()) as u32;
    pick(rng, &[1, 1, 1, 2, 1 << 8, 1 << 16, 1 << 31, any, u32::MAX])
}

/// Counts of all groups: nobody waits, one group alone, all of them, or some.
fn counts(rng: &mut Rng) -> Vec<u32> {
    let (alone, share) = (below(rng, 8), pick(rng, &[2, 2, 4]));
    let kind = below(rng, 8);
    let waits = |at: usize| match kind {
        0 => false,
        1 | 2 => at == alone,
        3 => true,
        _ => once_in(rng, share),
    };
    let waiting: Vec<bool> = (0..8).map(waits).collect();
    waiting.into_iter().map(|waits| if waits { count(rng) } else { 0 }).collect()
}

/// A call that is not turned away.
pub fn good(rng: &mut Rng) -> Call {
    let weights = weights(rng);
    Call { waiting: counts(rng), turn: turn(rng, &weights), weights }
}

/// Put a weight, the group or the used folds out of range, often by one, or with the low half as it was.
fn damage(rng: &mut Rng, call: &mut Call) {
    let (far, at, high) = (pick(rng, &FAR), below(rng, 8), 1 << 32);
    match rng.word() % 3 {
        0 => call.weights[at] = pick(rng, &[0, GREATEST_WEIGHT + 1, far, call.weights[at] | high]),
        1 => call.turn[0] = pick(rng, &[0, GROUPS + 1, far, call.turn[0] | high]),
        _ => {
            let next = call.used_of_weight().map_or(far, |(_, weight)| weight.wrapping_add(1));
            call.turn[1] = pick(rng, &[next, next, far, call.turn[1] | high, GREATEST_WEIGHT]);
        }
    }
}

/// Any call with the right lengths: two thirds good, the others damaged, some in two ways.
pub fn any(rng: &mut Rng) -> Call {
    let mut call = good(rng);
    for _ in 0..pick(rng, &[0, 0, 0, 0, 1, 2]) {
        damage(rng, &mut call);
    }
    call
}

/// The folds of others that each group has seen since it began to wait or since its last fold, and the most it saw.
#[derive(Default)]
pub struct Waits {
    seen: [u64; GROUPS as usize],
    pub longest: [u64; GROUPS as usize],
}

impl Waits {
    /// Count a fold of this group; the counts are those before it.
    pub fn count(&mut self, group: u64, waiting: &[u32]) {
        for (at, count) in waiting.iter().enumerate() {
            let waits_on = *count > 0 && at != place(group);
            self.seen[at] = if waits_on { self.seen[at] + 1 } else { 0 };
            self.longest[at] = self.longest[at].max(self.seen[at]);
        }
    }
}

/// The sum of the weights of the other groups, for each group.
pub fn sums_of_others(weights: &[u64]) -> Vec<u64> {
    weights.iter().map(|weight| weights.iter().sum::<u64>() - weight).collect()
}
