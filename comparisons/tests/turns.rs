//! The turns against the reference: random calls, every turn with every pattern of waiting groups, wrong lengths, and
//! long runs in which the waits of the groups are measured.

use comparisons::seed::{below, generator, once_in, pick, seed};
use comparisons::tally::Tally;
use comparisons::turns::{any, count, good, sums_of_others, turn, weights, Call, Waits};
use reference::rng::Rng;
use reference::turns::{place, Next, GREATEST_WEIGHT, GROUPS};

/// What a call comes to.
fn outcome(call: &Call, next: Next) -> String {
    let is_over = call.used_of_weight().is_some_and(|(used, weight)| used == weight);
    match next {
        Next::Refused(number) => format!("refused({number})"),
        Next::None => "none".to_string(),
        Next::Group(group) if group != call.turn[0] => "passes on".to_string(),
        Next::Group(_) => if is_over { "comes round" } else { "goes on" }.to_string(),
    }
}

/// The outcomes of calls that are not turned away.
const TAKEN: [&str; 4] = ["goes on", "passes on", "comes round", "none"];

/// The reasons for which a call with the right lengths is turned away; a weight with the group that has it.
fn reasons(call: &Call) -> Vec<(&'static str, Option<usize>)> {
    let past = |number: u64, most: u64, names: [&'static str; 3]| match number {
        0 => Some(names[0]),
        _ if number <= most => None,
        _ => Some(names[if number == most + 1 { 1 } else { 2 }]),
    };
    let weight = |(at, weight): (usize, &u64)| {
        past(*weight, GREATEST_WEIGHT, ["weight 0", "weight 17", "a weight far above"]).map(|name| (name, Some(at + 1)))
    };
    let group = past(call.turn[0], GROUPS, ["group 0", "group 9", "a group far above"]);
    let used = call.used_of_weight().filter(|(used, weight)| used > weight).map(|(used, weight)| match used {
        _ if used == weight + 1 => "used one above",
        _ if used <= GREATEST_WEIGHT => "used above its own weight alone",
        _ => "used far above",
    });
    let turn = group.into_iter().chain(used).map(|name| (name, None));
    call.weights.iter().enumerate().filter_map(weight).chain(turn).collect()
}

/// What `note_reasons` counts.
const REASONS: [&str; 18] = [
    "weight 0", "weight 17", "a weight far above", "group 0", "group 9", "a group far above", "used one above",
    "used above its own weight alone", "used far above", "20 although nobody waits", "weight of group 1",
    "weight of group 2", "weight of group 3", "weight of group 4", "weight of group 5", "weight of group 6",
    "weight of group 7", "weight of group 8",
];

/// Count the reason of a call that is turned away, where there is one alone.
fn note_reasons(tally: &mut Tally, call: &Call) {
    let [(reason, group)] = reasons(call)[..] else { return };
    tally.note(reason);
    if let Some(group) = group {
        tally.note(&format!("weight of group {group}"));
    }
    if call.waiting.iter().all(|count| *count == 0) {
        tally.note("20 although nobody waits");
    }
}

/// What `note_borders` counts.
const BORDERS: [&str; 9] = [
    "used is the weight", "used is 0", "used is 16", "its group has none waiting", "from 8 to 1", "from 8 past 1",
    "over 8", "the last fold of a group", "one of 2^32 - 1 folds",
];

/// Count the borders at which a call that names a group stands.
fn note_borders(tally: &mut Tally, call: &Call, group: u64) {
    let Some((used, weight)) = call.used_of_weight() else { return };
    let (from, count) = (call.turn[0], call.waiting[place(group)]);
    let holds = [
        used == weight, used == 0, used == GREATEST_WEIGHT, call.waiting[place(from)] == 0 && used < weight,
        from == GROUPS && group == 1, from == GROUPS && group > 1 && group < GROUPS, from < GROUPS && group < from,
        count == 1, count == u32::MAX,
    ];
    BORDERS.iter().zip(holds).filter(|(_, holds)| *holds).for_each(|(border, _)| tally.note(border));
}

/// Make a call both ways, and count what it comes to and at which borders it stands.
fn compare(tally: &mut Tally, mut call: Call) {
    let before = call.clone();
    let next = call.take();
    tally.case(&outcome(&before, next));
    match next {
        Next::Group(group) => note_borders(tally, &before, group),
        Next::Refused(20) => note_reasons(tally, &before),
        _ => {}
    }
}

#[test]
fn random_turns() {
    let (mut rng, mut tally) = (generator("random_turns"), Tally::new("random_turns"));
    for _ in 0..200_000 {
        compare(&mut tally, any(&mut rng));
    }
    tally.finish(&[&TAKEN[..], &["refused(20)"], &REASONS, &BORDERS].concat());
}

#[test]
fn every_turn() {
    // All turns up to the first that are turned away, with each pattern of waiting groups.
    let (mut rng, mut tally) = (generator("every_turn"), Tally::new("every_turn"));
    let mut agreed = vec![vec![1; 8], vec![GREATEST_WEIGHT; 8], (1..=8).collect(), (9..=16).rev().collect()];
    agreed.push(weights(&mut rng));
    for weights in agreed {
        for number in 0..10 * 18 * 256 {
            let (group, used, pattern) = (number % 10, number / 10 % 18, number / 180);
            let waiting = (0..8).map(|at| if pattern >> at & 1 == 1 { count(&mut rng) } else { 0 }).collect();
            compare(&mut tally, Call { weights: weights.clone(), waiting, turn: vec![group, used] });
        }
    }
    let turn = ["group 0", "group 9", "used one above", "used above its own weight alone", "used far above"];
    tally.finish(&[&TAKEN[..], &["refused(20)", "20 although nobody waits"], &turn, &BORDERS].concat());
}

#[test]
fn lengths_of_turns() {
    let (mut rng, mut tally) = (generator("lengths_of_turns"), Tally::new("lengths_of_turns"));
    for number in 0..40 * 11 * 11 * 5 {
        let call = any(&mut rng);
        let fitting = call.clone().take();
        let lengths = [number % 11, number / 11 % 11, number / 121 % 5];
        let mut other = call.clone();
        other.weights.resize(lengths[0], 1);
        other.waiting.resize(lengths[1], 1);
        other.turn.resize(lengths[2], 1);
        let fits = lengths == [8, 8, 2];
        assert_eq!(other.take(), if fits { fitting } else { Next::Refused(7) }, "seed {}: {lengths:?}", seed());
        tally.case(if fits { "fits" } else { "refused(7)" });
        let alone = match lengths {
            [8, 8, 2] => continue,
            [_, 8, 2] => "7 for the weights",
            [8, _, 2] => "7 for the counts",
            [8, 8, _] => "7 for the turn",
            _ => "7 for more than one",
        };
        tally.note(alone);
        tally.note(&format!("7 before {}", outcome(&call, fitting)));
    }
    let slices = ["7 for the weights", "7 for the counts", "7 for the turn", "7 for more than one"];
    let before = ["goes on", "passes on", "comes round", "none", "refused(20)"].map(|word| format!("7 before {word}"));
    tally.finish(&[&["fits", "refused(7)"], &slices[..], &before.each_ref().map(String::as_str)].concat());
}

/// The calls of a run.
const CALLS: u64 = 200_000;

/// How folds arrive before each call: for each group once in so many calls, and then up to so many.
struct Arrivals {
    every: [u64; 8],
    most: u32,
}

impl Arrivals {
    /// Folds that arrive before a call.
    fn arrive(&self, rng: &mut Rng, waiting: &mut [u32]) {
        for (count, every) in waiting.iter_mut().zip(self.every) {
            if once_in(rng, every) {
                *count = count.saturating_add(1 + below(rng, self.most as usize) as u32);
            }
        }
    }
}

/// Runs of all kinds: nearly idle, about as many folds as calls, and far more; the same for all groups, or for each its
/// own, or with one group that seldom comes among others that always wait.
fn all_arrivals(rng: &mut Rng) -> Vec<Arrivals> {
    let mut all: Vec<Arrivals> = [1, 2, 7, 8, 9, 16, 100].map(|every| Arrivals { every: [every; 8], most: 1 }).into();
    all.extend([(8, 3), (100, 30), (1, u32::MAX)].map(|(every, most)| Arrivals { every: [every; 8], most }));
    for _ in 0..4 {
        let every = [0; 8].map(|_| pick(rng, &[1, 3, 10, 30, 100, 1000]));
        all.push(Arrivals { every, most: pick(rng, &[1, 4, 20]) });
        let mut seldom = [1; 8];
        seldom[below(rng, 8)] = 200;
        all.push(Arrivals { every: seldom, most: 1 });
    }
    all
}

/// A run of calls, each with the turn that the last one left: no group may see more folds of others than their weights
/// allow while it waits.
fn check_waits(rng: &mut Rng, tally: &mut Tally, arrivals: &Arrivals) {
    let mut call = Call { waiting: vec![0; 8], ..good(rng) };
    let (mut waits, sums) = (Waits::default(), sums_of_others(&call.weights));
    for _ in 0..CALLS {
        arrivals.arrive(rng, &mut call.waiting);
        let before = call.clone();
        let next = call.take();
        tally.case(&outcome(&before, next));
        if let Next::Group(group) = next {
            waits.count(group, &before.waiting);
        }
        let within = waits.longest.iter().zip(&sums).all(|(longest, sum)| longest <= sum);
        assert!(within, "seed {}: the longest waits are {:?} after {before:?}", seed(), waits.longest);
    }
    for (longest, sum) in waits.longest.iter().zip(&sums) {
        tally.note(if longest == sum { "a wait of all the others' weights" } else { "no such wait" });
    }
}

#[test]
fn waits_are_bounded() {
    let (mut rng, mut tally) = (generator("waits_are_bounded"), Tally::new("waits_are_bounded"));
    for arrivals in all_arrivals(&mut rng) {
        check_waits(&mut rng, &mut tally, &arrivals);
    }
    tally.finish(&[&TAKEN[..], &["a wait of all the others' weights", "no such wait"]].concat());
}

#[test]
fn all_always_wait() {
    // The longest wait of each group is then the sum of the others' weights, and its share is its weight.
    let (mut rng, mut tally) = (generator("all_always_wait"), Tally::new("all_always_wait"));
    for _ in 0..100 {
        let weights = weights(&mut rng);
        let (rounds, mut served) = (20, vec![0; 8]);
        let mut call = Call { waiting: vec![1; 8], turn: turn(&mut rng, &weights), weights };
        let mut waits = Waits::default();
        for _ in 0..rounds * call.weights.iter().sum::<u64>() {
            let before = call.clone();
            let next = call.take();
            let Next::Group(group) = next else { panic!("seed {}: {next:?} of {before:?}", seed()) };
            waits.count(group, &before.waiting);
            served[place(group)] += 1;
            // Another fold arrives for the one that was served.
            call.waiting[place(group)] += 1;
            tally.case(&outcome(&before, next));
        }
        assert_eq!(waits.longest[..], sums_of_others(&call.weights), "seed {}: {:?}", seed(), call.weights);
        let shares: Vec<u64> = call.weights.iter().map(|weight| rounds * weight).collect();
        assert_eq!(served, shares, "seed {}: the folds of each group", seed());
    }
    tally.finish(&["goes on", "passes on"]);
}
