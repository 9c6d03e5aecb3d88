//! Taking turns: points, refusals and their order, whole rounds, and the longest wait that any arrivals can cause.

use reference::rng::Rng;
use reference::turns::*;
use std::array;
use std::collections::BTreeMap;

/// Weights that differ from group to group, with the greatest in the last place.
const WEIGHTS: [u64; 8] = [3, 1, 4, 1, 5, 9, 2, 16];

/// Ask for the next fold: it has this group and new turn, and its count is one less; or the answer changes nothing.
#[track_caller]
fn assert_next(weights: [u64; 8], waiting: [u32; 8], turn: [u64; 2], expected: Result<[u64; 2], Next>) {
    let (mut counts, mut new, mut left) = (waiting, turn, waiting);
    if let Ok([group, _]) = expected {
        left[place(group)] -= 1;
    }
    let answer = next_fold(&weights, &mut counts, &mut new);
    assert_eq!(answer, expected.map_or_else(|other| other, |[group, _]| Next::Group(group)), "{turn:?}");
    assert_eq!((new, counts), (expected.unwrap_or(turn), left), "{turn:?}");
}

/// Counts of so many folds for these groups, and of none for the others.
fn waiting(groups: &[u64], count: u32) -> [u32; 8] {
    array::from_fn(|at| if groups.contains(&(at as u64 + 1)) { count } else { 0 })
}

/// All turns that these weights allow.
fn turns(weights: &[u64; 8]) -> Vec<[u64; 2]> {
    (1..=GROUPS).flat_map(|group| (0..=weights[place(group)]).map(move |used| [group, used])).collect()
}

/// Random weights within the range.
fn random_weights(rng: &mut Rng) -> [u64; 8] {
    array::from_fn(|_| rng.between(1, GREATEST_WEIGHT as i128) as u64)
}

#[test]
fn a_turn_goes_on_up_to_its_weight() {
    for [group, used] in turns(&WEIGHTS) {
        let next = if used < WEIGHTS[place(group)] { [group, used + 1] } else { [group % 8 + 1, 1] };
        for count in [1, 2, u32::MAX] {
            assert_next(WEIGHTS, [count; 8], [group, used], Ok(next));
        }
    }
}

#[test]
fn a_turn_ends_when_its_group_has_none_waiting() {
    for used in 0..=5 {
        assert_next(WEIGHTS, waiting(&[1, 2, 3, 4, 6, 7, 8], 1), [5, used], Ok([6, 1]));
        assert_next(WEIGHTS, waiting(&[1, 4, 8], 7), [5, used], Ok([8, 1]));
        assert_next(WEIGHTS, waiting(&[1, 4], 7), [5, used], Ok([1, 1]));
        assert_next(WEIGHTS, waiting(&[4], u32::MAX), [5, used], Ok([4, 1]));
    }
}

#[test]
fn groups_rise_and_after_the_last_comes_the_first() {
    assert_next(WEIGHTS, [1; 8], [8, 16], Ok([1, 1]));
    assert_next(WEIGHTS, waiting(&[2, 7, 8], 1), [8, 16], Ok([2, 1]));
    assert_next(WEIGHTS, waiting(&[1, 2, 7], 1), [8, 3], Ok([1, 1]));
    assert_next(WEIGHTS, waiting(&[6, 8], 1), [7, 2], Ok([8, 1]));
    assert_next(WEIGHTS, waiting(&[6, 7], 1), [7, 2], Ok([6, 1]));
}

#[test]
fn alone_a_group_has_turn_after_turn() {
    for turn in turns(&WEIGHTS) {
        for group in 1..=GROUPS {
            let goes_on = turn[0] == group && turn[1] < WEIGHTS[place(group)];
            let used = if goes_on { turn[1] + 1 } else { 1 };
            assert_next(WEIGHTS, waiting(&[group], 1), turn, Ok([group, used]));
        }
    }
}

#[test]
fn none_changes_nothing() {
    for turn in turns(&WEIGHTS) {
        assert_next(WEIGHTS, [0; 8], turn, Err(Next::None));
    }
}

/// Ask that a call is turned away with 20, whoever waits.
#[track_caller]
fn assert_turned_away(weights: [u64; 8], turn: [u64; 2]) {
    for waiting in [[0; 8], [1; 8], waiting(&[4], 1), [u32::MAX; 8]] {
        assert_next(weights, waiting, turn, Err(Next::Refused(20)));
    }
}

#[test]
fn twenty() {
    for at in 0..8 {
        for weight in [0, 17, 255, 256, 257, 1 << 32, (1 << 32) + 1, 1 << 63, u64::MAX] {
            let mut weights = WEIGHTS;
            weights[at] = weight;
            // Whether it is the weight of the turn's group or of another one.
            assert_turned_away(weights, [at as u64 + 1, 0]);
            assert_turned_away(weights, [(at as u64 + 1) % 8 + 1, 0]);
        }
    }
    for group in [0, 9, 10, 255, 256, 257, 1 << 32, (1 << 32) + 1, u64::MAX] {
        assert_turned_away(WEIGHTS, [group, 0]);
    }
    for (at, weight) in WEIGHTS.iter().enumerate() {
        for used in [weight + 1, 17, 256, 1 << 32, (1 << 32) + 1, 1 << 63, u64::MAX] {
            assert_turned_away(WEIGHTS, [at as u64 + 1, used]);
        }
    }
    // A weight of 1 and one of 16 are within the range.
    assert_next([1; 8], [1; 8], [1, 1], Ok([2, 1]));
    assert_next([16; 8], [1; 8], [1, 16], Ok([2, 1]));
}

#[test]
fn seven_comes_before_twenty() {
    for number in 0..11 * 11 * 5 {
        let (weights, waiting, turn) = (number % 11, number / 11 % 11, number / 121);
        let fits = (weights, waiting, turn) == (8, 8, 2);
        for (entry, fitting) in [(1, Next::Group(2)), (0, Next::Refused(20))] {
            let (mut counts, mut new) = (vec![5; waiting], vec![entry; turn]);
            let answer = next_fold(&vec![entry; weights], &mut counts, &mut new);
            assert_eq!(answer, if fits { fitting } else { Next::Refused(7) }, "{weights}, {waiting} and {turn} places");
            assert!(answer == Next::Group(2) || (counts, new) == (vec![5; waiting], vec![entry; turn]));
        }
    }
}

#[test]
fn everybody_waits() {
    let mut rng = Rng::new(81);
    for weights in [WEIGHTS, [1; 8], [16; 8], random_weights(&mut rng), random_weights(&mut rng)] {
        // Each group as often as its weight says.
        let round: Vec<[u64; 2]> = turns(&weights).into_iter().filter(|[_, used]| *used > 0).collect();
        for start in turns(&weights) {
            let (mut counts, mut turn) = ([1000; 8], start);
            let past = round.iter().filter(|turn| **turn <= start).count();
            for expected in round.iter().cycle().skip(past).take(2 * round.len() + 1) {
                assert_eq!(next_fold(&weights, &mut counts, &mut turn), Next::Group(expected[0]));
                assert_eq!(turn, *expected);
            }
        }
    }
}

#[test]
fn all_that_waits_is_served() {
    let mut rng = Rng::new(82);
    for _ in 0..300 {
        let weights = random_weights(&mut rng);
        let mut counts: [u32; 8] = array::from_fn(|_| rng.between(-40, 60).max(0) as u32);
        let (all, mut served, mut turn) = (counts, [0; 8], [rng.between(1, 8) as u64, 1]);
        while let Next::Group(group) = next_fold(&weights, &mut counts, &mut turn) {
            served[place(group)] += 1;
        }
        assert_eq!((served, counts), (all, [0; 8]));
    }
}

/// The most folds of others that a group which keeps waiting can see before its own, from a turn on, where others may
/// begin to wait and cease to at each call. Nothing is known yet of the turns from which it is being searched.
fn longest_wait(weights: &[u64; 8], group: u64, turn: [u64; 2], known: &mut BTreeMap<[u64; 2], Option<u64>>) -> u64 {
    if let Some(before) = known.get(&turn) {
        return before.unwrap_or_else(|| panic!("group {group} may wait for ever: {weights:?} and {turn:?} come again"));
    }
    known.insert(turn, None);
    let mut longest = 0;
    for pattern in (0..256).filter(|pattern| pattern >> place(group) & 1 == 1) {
        let (mut counts, mut new) = (array::from_fn::<u32, 8, _>(|at| pattern >> at & 1), turn);
        if next_fold(weights, &mut counts, &mut new) != Next::Group(group) {
            longest = longest.max(1 + longest_wait(weights, group, new, known));
        }
    }
    known.insert(turn, Some(longest));
    longest
}

#[test]
fn the_longest_wait_is_the_sum_of_the_others() {
    let mut rng = Rng::new(83);
    let few = [WEIGHTS, [1; 8], [16; 8], [16, 1, 1, 1, 1, 1, 1, 1], [1, 16, 16, 16, 16, 16, 16, 16]];
    for weights in few.into_iter().chain((0..5).map(|_| random_weights(&mut rng))) {
        for group in 1..=GROUPS {
            let mut known = BTreeMap::new();
            let waits = turns(&weights).into_iter().map(|turn| longest_wait(&weights, group, turn, &mut known));
            let others = weights.iter().sum::<u64>() - weights[place(group)];
            assert_eq!(waits.max(), Some(others), "group {group} of {weights:?}");
        }
    }
}
