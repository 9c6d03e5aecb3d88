//! Taking turns on the machine: whose fold is next, by request 10's own sentences.

/// The groups have the numbers 1 to 8.
pub const GROUPS: u64 = 8;

/// The greatest weight.
pub const GREATEST_WEIGHT: u64 = 16;

/// A turn: whose it is, and the folds used in it.
#[derive(Clone, Copy, Debug, PartialEq, Eq)]
pub struct Turn {
    pub group: u64,
    pub used: u64,
}

/// What the operation answers; the turn and the waiting counts change on `Group` alone.
#[derive(Clone, Copy, Debug, PartialEq, Eq)]
pub enum Next {
    /// Turned away with this number.
    Refused(u32),
    /// Nobody waits.
    None,
    /// The next fold is this group's.
    Group(u64),
}

/// Where the number of a group stands in a list.
pub fn place(group: u64) -> usize {
    group as usize - 1
}

/// Whether the weights or the turn are turned away.
fn is_refused(weights: &[u64], turn: Turn) -> bool {
    weights.iter().any(|weight| *weight < 1 || *weight > GREATEST_WEIGHT)
        || turn.group < 1
        || turn.group > GROUPS
        || turn.used > weights[place(turn.group)]
}

/// A turn ends at its weight or when its group has none waiting.
fn has_ended(weights: &[u64], waiting: &[u32], turn: Turn) -> bool {
    turn.used == weights[place(turn.group)] || waiting[place(turn.group)] == 0
}

/// The group after this one: they rise, and after 8 comes 1.
fn after(group: u64) -> u64 {
    if group == GROUPS { 1 } else { group + 1 }
}

/// The next waiting group after this one, which is the last to be asked; nothing where nobody waits.
fn next_waiting(waiting: &[u32], group: u64) -> Option<u64> {
    let mut next = group;
    for _ in 0..GROUPS {
        next = after(next);
        if waiting[place(next)] > 0 {
            return Some(next);
        }
    }
    None
}

/// The turn with the next fold counted; nothing where nobody waits.
fn new_turn(weights: &[u64], waiting: &[u32], turn: Turn) -> Option<Turn> {
    if has_ended(weights, waiting, turn) {
        next_waiting(waiting, turn.group).map(|group| Turn { group, used: 1 })
    } else {
        Some(Turn { used: turn.used + 1, ..turn })
    }
}

/// The group of the next fold. The weights and the waiting counts stand in the order of the groups, and the turn is its
/// group and the folds used; the new counts and the new turn take their places. 7 for other lengths, then 20.
pub fn next_fold(weights: &[u64], waiting: &mut [u32], turn: &mut [u64]) -> Next {
    if weights.len() as u64 != GROUPS || waiting.len() as u64 != GROUPS || turn.len() != 2 {
        return Next::Refused(7);
    }
    let old = Turn { group: turn[0], used: turn[1] };
    if is_refused(weights, old) {
        return Next::Refused(20);
    }
    let Some(new) = new_turn(weights, waiting, old) else { return Next::None };
    waiting[place(new.group)] -= 1;
    turn.copy_from_slice(&[new.group, new.used]);
    Next::Group(new.group)
}
