//! Taking turns on the machine: whose fold is next.

/// The groups have the numbers 1 to 8.
const GROUPS: usize = 8;

/// The next fold: 0 where a group is named, 104 where nobody waits, or the refusal.
#[inline(never)]
pub fn next_fold(weights: &[u64], waiting: &mut [u32], turn: &mut [u64]) -> u8 {
    if weights.len() != GROUPS || waiting.len() != GROUPS || turn.len() != 2 {
        return 7;
    }
    let (group, used) = (turn[0], turn[1]);
    if !weights.iter().all(|weight| (1..=16).contains(weight)) || !(1..=GROUPS as u64).contains(&group) {
        return 20;
    }
    let own = group as usize - 1;
    if used > weights[own] {
        return 20;
    }
    if used < weights[own] && waiting[own] > 0 {
        waiting[own] -= 1;
        turn[1] += 1;
        return 0;
    }
    let mut others = (own + 1..GROUPS).chain(0..=own);
    let Some(next) = others.find(|next| waiting[*next] > 0) else { return 104 };
    waiting[next] -= 1;
    turn[0] = next as u64 + 1;
    turn[1] = 1;
    0
}
