//! The seven operations and their products as a careful Rust user writes them: loops over slices with iterators, rows
//! in the order of memory, nothing tuned by hand. The speed table compiles this file twice, with `-O` and with `-O` for
//! the processor at hand, and holds the static library against both. `fresh` has the operations with a fresh witness,
//! `turns` that of taking turns, and `forms` the count of a quadratic form's zeros.

mod forms;
mod fresh;
mod turns;

pub use forms::*;
pub use fresh::*;
pub use turns::*;

/// What a setting's five numbers fix.
pub struct Shape {
    pub n: usize,
    pub m: usize,
    pub t: usize,
    pub b: u64,
    pub bound: u64,
    pub k: usize,
    pub columns: usize,
    pub h: u64,
    pub limit: u64,
    pub powers: Vec<u64>,
}

/// The shape of a setting, or the first of the refusals 1 to 6.
#[inline(never)]
pub fn shape([n, m, t, b, bound]: [u64; 5]) -> Result<Shape, u8> {
    if !(1..=64).contains(&n) || !(1..=4096).contains(&m) || !(1..=16).contains(&t) {
        return Err(1);
    }
    if !(2..=65535).contains(&b) {
        return Err(2);
    }
    if !(1..=1 << 62).contains(&bound) {
        return Err(3);
    }
    let square = u128::from(b * b);
    let mut next = square;
    let mut level = 0;
    while next <= u128::from(bound) {
        next *= square;
        level += 1;
    }
    let k = level + 2;
    let columns = 2 * k * t;
    if columns > 512 {
        return Err(4);
    }
    let h = b / 2;
    if (columns * h) * (columns * h) * m > bound {
        return Err(5);
    }
    let limit = h * h * m;
    let repunit = (0..k).fold(0u128, |sum, _| sum * u128::from(b) + 1);
    match (repunit * repunit).checked_mul(u128::from(limit)) {
        Some(width) if width <= 1 << 62 => {}
        _ => return Err(6),
    }
    let powers = (0..k).map(|p| b.pow(p as u32)).collect();
    let (n, m, t, k, columns) = (n as usize, m as usize, t as usize, k as usize, columns as usize);
    Ok(Shape { n, m, t, b, bound, k, columns, h, limit, powers })
}

/// Whether every column of s has a squared length of at most `bound`.
fn columns_within(s: &[i64], t: usize, bound: u64) -> bool {
    (0..t).all(|j| {
        let mut column = s.iter().skip(j).step_by(t).map(|x| x.unsigned_abs());
        column.try_fold(bound, |left, x| left.checked_sub(x.checked_mul(x)?)).is_some()
    })
}

/// a s modulo 2^64: T = A S and T~ = A S~.
#[inline(never)]
pub fn commitment(a: &[u64], s: &[i64], m: usize, columns: usize, out: &mut [u64]) {
    out.fill(0);
    for (row_a, row_out) in a.chunks_exact(m).zip(out.chunks_exact_mut(columns)) {
        for (x, row_s) in row_a.iter().zip(s.chunks_exact(columns)) {
            for (o, y) in row_out.iter_mut().zip(row_s) {
                *o = o.wrapping_add(x.wrapping_mul(*y as u64));
            }
        }
    }
}

/// The number of entries of a lower triangle with so many rows, which is where the row after them begins.
pub fn triangle(rows: usize) -> usize {
    rows * (rows + 1) / 2
}

/// s transposed times s, exactly, as its lower triangle: D~ = S~-transposed S~.
#[inline(never)]
pub fn lower_products(s: &[i64], columns: usize, out: &mut [i64]) {
    out.fill(0);
    for row in s.chunks_exact(columns) {
        let mut rest = &mut *out;
        for (i, a) in row.iter().enumerate() {
            let (row_out, below) = rest.split_at_mut(i + 1);
            for (o, b) in row_out.iter_mut().zip(row) {
                *o += a * b;
            }
            rest = below;
        }
    }
}

/// x transposed times y, exactly: D = S-transposed S and V = S1-transposed S2.
#[inline(never)]
pub fn products(x: &[i64], y: &[i64], columns: usize, out: &mut [i64]) {
    out.fill(0);
    for (row_x, row_y) in x.chunks_exact(columns).zip(y.chunks_exact(columns)) {
        for (a, row_out) in row_x.iter().zip(out.chunks_exact_mut(columns)) {
            for (o, b) in row_out.iter_mut().zip(row_y) {
                *o += a * b;
            }
        }
    }
}

/// The number that a byte of the challenge stands for.
fn ternary(c: u8) -> i64 {
    match c {
        0 => 0,
        1 => 1,
        _ => -1,
    }
}

/// s times the matrix of the values of c, exactly.
fn fold_exactly<E>(s: &[i64], c: &[E], value: impl Fn(&E) -> i64, columns: usize, t: usize, out: &mut [i64]) {
    out.fill(0);
    for (row_s, row_out) in s.chunks_exact(columns).zip(out.chunks_exact_mut(t)) {
        for (x, row_c) in row_s.iter().zip(c.chunks_exact(t)) {
            for (o, v) in row_out.iter_mut().zip(row_c) {
                *o += x * value(v);
            }
        }
    }
}

/// x times the matrix of the values of c, modulo 2^64.
fn fold_wrapping<E>(x: &[u64], c: &[E], value: impl Fn(&E) -> i64, columns: usize, t: usize, out: &mut [u64]) {
    out.fill(0);
    for (row_x, row_out) in x.chunks_exact(columns).zip(out.chunks_exact_mut(t)) {
        for (x, row_c) in row_x.iter().zip(c.chunks_exact(t)) {
            for (o, v) in row_out.iter_mut().zip(row_c) {
                *o = o.wrapping_add(x.wrapping_mul(value(v) as u64));
            }
        }
    }
}

/// d times the matrix of the values of c, exactly, for a symmetric d given as its lower triangle: each entry beside the
/// diagonal is used for two rows.
fn fold_symmetric<E>(d: &[i64], c: &[E], value: impl Fn(&E) -> i64, t: usize, out: &mut [i64]) {
    out.fill(0);
    for (i, row_c) in c.chunks_exact(t).enumerate() {
        let (above, rest) = out.split_at_mut(i * t);
        let (row_d, own) = (&d[triangle(i)..triangle(i + 1)], &mut rest[..t]);
        for ((x, other_c), other) in row_d.iter().zip(c.chunks_exact(t)).zip(above.chunks_exact_mut(t)) {
            for (o, v) in own.iter_mut().zip(other_c) {
                *o += x * value(v);
            }
            for (o, v) in other.iter_mut().zip(row_c) {
                *o += x * value(v);
            }
        }
        for (o, v) in own.iter_mut().zip(row_c) {
            *o += row_d[i] * value(v);
        }
    }
}

/// The matrix of the values of c, transposed, times right, exactly.
fn fold_transposed<E>(c: &[E], right: &[i64], value: impl Fn(&E) -> i64, t: usize, out: &mut [i64]) {
    out.fill(0);
    for (row_c, row_right) in c.chunks_exact(t).zip(right.chunks_exact(t)) {
        for (v, row_out) in row_c.iter().zip(out.chunks_exact_mut(t)) {
            for (o, y) in row_out.iter_mut().zip(row_right) {
                *o += value(v) * y;
            }
        }
    }
}

/// s c, exactly: S' = S~ C.
#[inline(never)]
pub fn fold_small(s: &[i64], c: &[u8], columns: usize, t: usize, out: &mut [i64]) {
    fold_exactly(s, c, |v| ternary(*v), columns, t, out);
}

/// x c modulo 2^64: T' = T~ C.
#[inline(never)]
pub fn fold_words(x: &[u64], c: &[u8], columns: usize, t: usize, out: &mut [u64]) {
    fold_wrapping(x, c, |v| ternary(*v), columns, t, out);
}

/// c transposed times d times c, exactly, for a lower triangle d: D' = C-transposed D~ C.
#[inline(never)]
pub fn fold_products(d: &[i64], c: &[u8], columns: usize, t: usize, out: &mut [i64]) {
    let mut right = vec![0; columns * t];
    fold_symmetric(d, c, |v| ternary(*v), t, &mut right);
    fold_transposed(c, &right, |v| ternary(*v), t, out);
}

/// The lowest digit of a size in balanced base b; the rest of the size is left for the next.
fn next_digit(rest: &mut u64, b: u64) -> i64 {
    let low = *rest % b;
    *rest /= b;
    let mut d = low as i64;
    if low > b / 2 {
        d -= b as i64;
        *rest += 1;
    }
    d
}

/// Writes the digits of x in balanced base b, lowest first.
fn write_digits(x: i64, b: u64, out: &mut [i64]) {
    let mut rest = x.unsigned_abs();
    for digit in out {
        let d = next_digit(&mut rest, b);
        *digit = if x < 0 { -d } else { d };
    }
}

/// Whether these are the digits of x in balanced base b, lowest first.
fn are_digits(x: i64, b: u64, digits: &[i64]) -> bool {
    let mut rest = x.unsigned_abs();
    digits.iter().all(|digit| {
        let d = next_digit(&mut rest, b);
        *digit == if x < 0 { -d } else { d }
    })
}

/// The k digits of each entry of s, entry after entry.
#[inline(never)]
pub fn digit_rows(s: &[i64], b: u64, k: usize, out: &mut [i64]) {
    for (x, digits) in s.iter().zip(out.chunks_exact_mut(k)) {
        write_digits(*x, b, digits);
    }
}

/// The digit witness S~ of [s1 s2], where s2 has so many columns.
#[inline(never)]
pub fn digit_witness(z: &Shape, s1: &[i64], s2: &[i64], columns: usize, out: &mut [i64]) {
    let rows = s1.chunks_exact(z.t).zip(s2.chunks_exact(columns));
    for ((left, right), row) in rows.zip(out.chunks_exact_mut(z.k * (z.t + columns))) {
        for (x, digits) in left.iter().chain(right).zip(row.chunks_exact_mut(z.k)) {
            write_digits(*x, z.b, digits);
        }
    }
}

/// [t1 t2] and [d1 v; v-transposed d2], where t2, d2 and v have so many columns.
fn write_joined(
    z: &Shape, t1: &[u64], d1: &[i64], t2: &[u64], d2: &[i64], v: &[i64], columns: usize, t: &mut [u64], d: &mut [i64],
) {
    let wide = z.t + columns;
    let rows = t1.chunks_exact(z.t).zip(t2.chunks_exact(columns));
    for ((left, right), row) in rows.zip(t.chunks_exact_mut(wide)) {
        row[..z.t].copy_from_slice(left);
        row[z.t..].copy_from_slice(right);
    }
    let (upper, lower) = d.split_at_mut(wide * z.t);
    let rows = d1.chunks_exact(z.t).zip(v.chunks_exact(columns));
    for ((left, right), row) in rows.zip(upper.chunks_exact_mut(wide)) {
        row[..z.t].copy_from_slice(left);
        row[z.t..].copy_from_slice(right);
    }
    for (i, (right, row)) in d2.chunks_exact(columns).zip(lower.chunks_exact_mut(wide)).enumerate() {
        for (o, x) in row.iter_mut().zip(v.iter().skip(i).step_by(columns)) {
            *o = *x;
        }
        row[z.t..].copy_from_slice(right);
    }
}

/// The leaves under both instances; nothing where one has none, or both have more than 2^32 − 1.
fn leaves_under(leaves1: u32, leaves2: u32) -> Option<u32> {
    leaves1.checked_add(leaves2).filter(|_| leaves1 > 0 && leaves2 > 0)
}

/// Commit: 0, or the refusal.
#[inline(never)]
pub fn commit(p: [u64; 5], a: &[u64], s: &[i64], t: &mut [u64], d: &mut [i64], leaves: &mut u32) -> u8 {
    let z = match shape(p) {
        Ok(z) => z,
        Err(number) => return number,
    };
    if a.len() != z.n * z.m || s.len() != z.m * z.t || t.len() != z.n * z.t || d.len() != z.t * z.t {
        return 7;
    }
    if !columns_within(s, z.t, z.bound) {
        return 8;
    }
    commitment(a, s, z.m, z.t, t);
    products(s, s, z.t, d);
    *leaves = 1;
    0
}

/// Message: 0, or the refusal.
#[inline(never)]
pub fn message(
    p: [u64; 5], a: &[u64], s1: &[i64], s2: &[i64], v: &mut [i64], tt: &mut [u64], dd: &mut [i64], ss: &mut [i64],
) -> u8 {
    let z = match shape(p) {
        Ok(z) => z,
        Err(number) => return number,
    };
    let inputs = a.len() == z.n * z.m && s1.len() == z.m * z.t && s2.len() == z.m * z.t;
    let outputs = v.len() == z.t * z.t && tt.len() == z.n * z.columns && dd.len() == triangle(z.columns);
    if !inputs || !outputs || ss.len() != z.m * z.columns {
        return 7;
    }
    if !columns_within(s1, z.t, z.bound) || !columns_within(s2, z.t, z.bound) {
        return 8;
    }
    products(s1, s2, z.t, v);
    digit_witness(&z, s1, s2, z.t, ss);
    commitment(a, ss, z.m, z.columns, tt);
    lower_products(ss, z.columns, dd);
    0
}

/// Folded witness: 0, or the refusal.
#[inline(never)]
pub fn fold_witness(p: [u64; 5], ss: &[i64], c: &[u8], s: &mut [i64]) -> u8 {
    let z = match shape(p) {
        Ok(z) => z,
        Err(number) => return number,
    };
    if ss.len() != z.m * z.columns || c.len() != z.columns * z.t || s.len() != z.m * z.t {
        return 7;
    }
    if c.iter().any(|v| *v > 2) {
        return 9;
    }
    if ss.iter().any(|x| x.unsigned_abs() > z.h) {
        return 11;
    }
    fold_small(ss, c, z.columns, z.t, s);
    0
}

/// The entries of [S1 S2], which has so many columns, that the digits of S~ stand for; or the refusal.
fn recomposed_entries(z: &Shape, ss: &[i64], wide: usize) -> Result<Vec<i64>, u8> {
    if ss.iter().any(|x| x.unsigned_abs() > z.h) {
        return Err(11);
    }
    let both: Vec<i64> = ss.chunks_exact(z.k).map(|block| recomposed(z, block)).collect();
    if !columns_within(&both, wide, z.bound) {
        return Err(8);
    }
    if !both.iter().zip(ss.chunks_exact(z.k)).all(|(x, block)| are_digits(*x, z.b, block)) {
        return Err(16);
    }
    Ok(both)
}

/// Writes the witnesses that S~ stands for, where s2 has so many columns: 0, or the refusal.
fn write_recomposed(z: &Shape, ss: &[i64], columns: usize, s1: &mut [i64], s2: &mut [i64]) -> u8 {
    let both = match recomposed_entries(z, ss, z.t + columns) {
        Ok(both) => both,
        Err(number) => return number,
    };
    let rows = s1.chunks_exact_mut(z.t).zip(s2.chunks_exact_mut(columns));
    for (row, (left, right)) in both.chunks_exact(z.t + columns).zip(rows) {
        left.copy_from_slice(&row[..z.t]);
        right.copy_from_slice(&row[z.t..]);
    }
    0
}

/// Recomposition: 0, or the refusal.
#[inline(never)]
pub fn recompose(p: [u64; 5], ss: &[i64], s1: &mut [i64], s2: &mut [i64]) -> u8 {
    let z = match shape(p) {
        Ok(z) => z,
        Err(number) => return number,
    };
    if ss.len() != z.m * z.columns || s1.len() != z.m * z.t || s2.len() != z.m * z.t {
        return 7;
    }
    write_recomposed(&z, ss, z.t, s1, s2)
}

/// Join: 0, or the refusal.
#[inline(never)]
pub fn join(
    p: [u64; 5], t1: &[u64], d1: &[i64], leaves1: u32, t2: &[u64], d2: &[i64], leaves2: u32, v: &[i64],
    t: &mut [u64], d: &mut [i64], leaves: &mut u32,
) -> u8 {
    let z = match shape(p) {
        Ok(z) => z,
        Err(number) => return number,
    };
    let first = t1.len() == z.n * z.t && d1.len() == z.t * z.t;
    let second = t2.len() == z.n * z.t && d2.len() == z.t * z.t && v.len() == z.t * z.t;
    if !first || !second || t.len() != 2 * z.n * z.t || d.len() != 4 * z.t * z.t {
        return 7;
    }
    let Some(sum) = leaves_under(leaves1, leaves2) else { return 15 };
    write_joined(&z, t1, d1, t2, d2, v, z.t, t, d);
    *leaves = sum;
    0
}

/// Whether no diagonal entry of d, cols by cols, is above the bound.
fn diagonal_within(d: &[i64], cols: usize, bound: u64) -> bool {
    d.iter().step_by(cols + 1).all(|x| *x <= bound as i64)
}

/// The sum of the entries of a block, each times its power of b: the width keeps it within a word.
fn recomposed(z: &Shape, block: &[i64]) -> i64 {
    block.iter().zip(&z.powers).map(|(x, p)| x * *p as i64).sum()
}

/// Whether G-transposed dd G is the joined D, which has so many columns, for a lower triangle dd: each block at or below
/// the diagonal is summed once and compared with both entries.
fn norm_holds(z: &Shape, dd: &[i64], joined: &[i64], wide: usize) -> bool {
    (0..wide).all(|i| {
        let mut sums = vec![0; i + 1];
        for (p, power) in z.powers.iter().map(|power| *power as i64).enumerate() {
            let row = i * z.k + p;
            let (left, own) = dd[triangle(row)..triangle(row + 1)].split_at(i * z.k);
            for (sum, block) in sums.iter_mut().zip(left.chunks_exact(z.k)) {
                *sum += power * recomposed(z, block);
            }
            // In the block on the diagonal all but the last entry stand above it as well.
            sums[i] += power * (2 * recomposed(z, &own[..p]) + power * own[p]);
        }
        sums.iter().enumerate().all(|(j, sum)| *sum == joined[i * wide + j] && *sum == joined[j * wide + i])
    })
}

/// Whether tt G is the joined T modulo 2^64.
fn commitment_holds(z: &Shape, tt: &[u64], joined: &[u64]) -> bool {
    tt.chunks_exact(z.k).zip(joined).all(|(block, expected)| {
        let sum = block.iter().zip(&z.powers).fold(0u64, |sum, (x, p)| sum.wrapping_add(x.wrapping_mul(*p)));
        sum == *expected
    })
}

/// The verdict's answer: 0 for yes, 102 for long, 100 for norm, 101 for commitment; t2, d2 and v have so many columns.
fn judged(
    z: &Shape, t1: &[u64], d1: &[i64], t2: &[u64], d2: &[i64], v: &[i64], columns: usize, tt: &[u64], dd: &[i64],
) -> u8 {
    if !diagonal_within(d1, z.t, z.bound) || !diagonal_within(d2, columns, z.bound) {
        return 102;
    }
    let wide = z.t + columns;
    let mut joined_t = vec![0; z.n * wide];
    let mut joined_d = vec![0; wide * wide];
    write_joined(z, t1, d1, t2, d2, v, columns, &mut joined_t, &mut joined_d);
    if !norm_holds(z, dd, &joined_d, wide) {
        return 100;
    }
    if !commitment_holds(z, tt, &joined_t) {
        return 101;
    }
    0
}

/// Verdict: its answer, or the refusal.
#[inline(never)]
pub fn verify(
    p: [u64; 5], t1: &[u64], d1: &[i64], leaves1: u32, t2: &[u64], d2: &[i64], leaves2: u32, v: &[i64],
    tt: &[u64], dd: &[i64], c: &[u8], t: &mut [u64], d: &mut [i64], leaves: &mut u32,
) -> u8 {
    let z = match shape(p) {
        Ok(z) => z,
        Err(number) => return number,
    };
    let instance = |t: &[u64], d: &[i64]| t.len() == z.n * z.t && d.len() == z.t * z.t;
    let sent = v.len() == z.t * z.t && tt.len() == z.n * z.columns && dd.len() == triangle(z.columns);
    if !instance(t1, d1) || !instance(t2, d2) || !sent || c.len() != z.columns * z.t || !instance(t, d) {
        return 7;
    }
    let Some(sum) = leaves_under(leaves1, leaves2) else { return 15 };
    if c.iter().any(|v| *v > 2) {
        return 9;
    }
    if dd.iter().any(|x| x.unsigned_abs() > z.limit) {
        return 10;
    }
    let answer = judged(&z, t1, d1, t2, d2, v, z.t, tt, dd);
    *leaves = if answer == 0 { sum } else { 0 };
    if answer == 0 {
        fold_words(tt, c, z.columns, z.t, t);
        fold_products(dd, c, z.columns, z.t, d);
    }
    answer
}

/// Relation test: 0 for member, 102 for long, 103 for products, 101 for commitment, or the refusal.
#[inline(never)]
pub fn test_relation(p: [u64; 5], a: &[u64], t: &[u64], d: &[i64], s: &[i64]) -> u8 {
    let z = match shape(p) {
        Ok(z) => z,
        Err(number) => return number,
    };
    if a.len() != z.n * z.m || s.len() != z.m * z.t || t.len() != z.n * z.t || d.len() != z.t * z.t {
        return 7;
    }
    if !columns_within(s, z.t, z.bound) {
        return 102;
    }
    let mut of_s = vec![0; z.t * z.t];
    products(s, s, z.t, &mut of_s);
    if of_s != d {
        return 103;
    }
    let mut image = vec![0; z.n * z.t];
    commitment(a, s, z.m, z.t, &mut image);
    if image != t {
        return 101;
    }
    0
}
