//! The digit rule and where the digits stand.

/// The k digits of an entry, lowest first; no digits where b is below 2.
pub fn digits(entry: i64, b: u64, k: usize) -> Vec<i64> {
    let mut row = Vec::new();
    if b < 2 {
        return row;
    }
    let h = b / 2;
    let mut w = entry.unsigned_abs();
    for _ in 0..k {
        let d = w % b;
        let digit = if d <= h {
            w = (w - d) / b;
            d as i64
        } else {
            w = (w - d) / b + 1;
            -((b - d) as i64)
        };
        row.push(if entry < 0 { -digit } else { digit });
    }
    row
}

/// Each entry of a matrix replaced by its k digits: digit p of column j stands in column j×k + p.
pub fn digit_matrix(s: &[i64], rows: usize, columns: usize, b: u64, k: usize) -> Vec<i64> {
    let mut out = vec![0; rows * columns * k];
    for i in 0..rows {
        for j in 0..columns {
            for (p, digit) in digits(s[i * columns + j], b, k).into_iter().enumerate() {
                out[i * columns * k + j * k + p] = digit;
            }
        }
    }
    out
}
