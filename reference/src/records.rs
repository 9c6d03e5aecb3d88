//! Lines of text, as both programs read and write them.

use crate::settings::{refusal, Parameters};

/// Longest line, line feed included.
const LONGEST_LINE: usize = 4096;

/// A line without its line feed; 13 for one that has none or is too long.
fn text(line: &[u8]) -> Result<&[u8], u32> {
    match line.strip_suffix(b"\n") {
        Some(text) if line.len() <= LONGEST_LINE => Ok(text),
        _ => Err(13),
    }
}

/// The lines of an input, each without its line feed or with its refusal.
pub(crate) fn lines(input: &[u8]) -> impl Iterator<Item = Result<&[u8], u32>> {
    input.split_inclusive(|byte| *byte == b'\n').map(text)
}

/// The word of a line and the fields after it.
pub(crate) fn word_and_fields(line: &[u8]) -> (&[u8], Vec<&[u8]>) {
    let mut fields = line.split(|byte| *byte == b'\t');
    (fields.next().unwrap_or_default(), fields.collect())
}

/// An unsigned number: decimal digits without a leading zero, within 64 bits.
pub(crate) fn unsigned(field: &[u8]) -> Option<u64> {
    if field.is_empty() || !field.iter().all(u8::is_ascii_digit) || (field[0] == b'0' && field.len() > 1) {
        return None;
    }
    let step = |value: u64, digit: &u8| value.checked_mul(10)?.checked_add((digit - b'0') as u64);
    field.iter().try_fold(0u64, step)
}

/// The numbers of a record: as many fields as stated, each read by the given rule, else 13.
pub(crate) fn numbers<T>(fields: &[&[u8]], count: u64, read: fn(&[u8]) -> Option<T>) -> Result<Vec<T>, u32> {
    if fields.len() as u64 != count {
        return Err(13);
    }
    fields.iter().map(|field| read(field)).collect::<Option<Vec<T>>>().ok_or(13)
}

/// The setting of a `param` line's fields: 13, then 1 to 6, then 14.
pub(crate) fn setting_of(fields: &[&[u8]]) -> Result<Parameters, u32> {
    let five = numbers(fields, 5, unsigned)?;
    let p = Parameters { n: five[0], m: five[1], t: five[2], b: five[3], bound: five[4] };
    if refusal(&p) != 0 {
        return Err(refusal(&p));
    }
    if p.n > 8 || p.m > 16 || p.t > 2 || p.k() > 8 {
        return Err(14);
    }
    Ok(p)
}

/// The fields of an output line as text.
pub(crate) fn texts<T: ToString>(entries: &[T]) -> Vec<String> {
    entries.iter().map(T::to_string).collect()
}

/// An output line: fields parted by tabs, ended by a line feed.
pub(crate) fn line(fields: &[String]) -> Vec<u8> {
    (fields.join("\t") + "\n").into_bytes()
}

/// The output line of a refusal at the line with this number.
pub(crate) fn refused(number: u64, refusal: u32) -> Vec<u8> {
    line(&["refused".to_string(), number.to_string(), refusal.to_string()])
}
