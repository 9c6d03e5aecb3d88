//! A setting by its five numbers, and what follows from them.

use crate::answers::{answer, Answer, Refusal};
use crate::raw::{self, call};

/// Places for the powers of b.
pub const POWERS: usize = 33;

/// Places of a setting's record: k, N and the powers of b.
pub const RECORD: usize = 2 + POWERS;

/// The five numbers of a setting; every operation tests them itself.
#[derive(Clone, Copy, Debug, PartialEq, Eq, Hash)]
pub struct Setting {
    /// Rows of A.
    pub n: u64,
    /// Columns of A, rows of a witness.
    pub m: u64,
    /// Columns of a witness.
    pub t: u64,
    /// The base of the digits.
    pub b: u64,
    /// B, the greatest squared length of a witness's column.
    pub bound: u64,
}

/// What follows from the five numbers of an accepted setting.
#[derive(Clone, Copy, Debug, PartialEq, Eq, Hash)]
pub struct Record {
    /// Digits of an entry.
    pub k: u64,
    /// N = 2kt, the columns of the digit witness.
    pub columns: u64,
    /// b^p in place p for p below k, 0 from place k on.
    pub powers: [u64; POWERS],
}

impl Setting {
    /// The setting with these five numbers, or the first of the refusals 1 to 6 that applies.
    pub fn new(n: u64, m: u64, t: u64, b: u64, bound: u64) -> Result<Setting, Refusal> {
        let setting = Setting::unchecked(n, m, t, b, bound);
        setting.record().map(|_| setting)
    }

    /// The setting with these five numbers, whether it is an accepted one or not.
    pub const fn unchecked(n: u64, m: u64, t: u64, b: u64, bound: u64) -> Setting {
        Setting { n, m, t, b, bound }
    }

    /// The row of the house list with this number, from 1 to 4.
    pub fn listed(number: u64) -> Result<Setting, Refusal> {
        let mut five = [0; 5];
        write_listed(number, &mut five)?;
        let [n, m, t, b, bound] = five;
        Ok(Setting { n, m, t, b, bound })
    }

    /// n, m, t, b and B.
    pub(crate) fn five(self) -> [u64; 5] {
        [self.n, self.m, self.t, self.b, self.bound]
    }

    /// The record of an accepted setting.
    pub fn record(self) -> Result<Record, Refusal> {
        let mut places = [0; RECORD];
        write_record(self, &mut places)?;
        let [k, columns, powers @ ..] = places;
        Ok(Record { k, columns, powers })
    }
}

/// Write a setting's record, k, N and the powers of b, to a slice of [`RECORD`] places: 1 to 6, then 7.
pub fn write_record(setting: Setting, record: &mut [u64]) -> Answer {
    answer(call!(raw::lova_setting, setting.five(), [] => [record]))
}

/// Write n, m, t, b and B of a row of the house list to a slice of 5 places: 12, then 7.
pub fn write_listed(number: u64, five: &mut [u64]) -> Answer {
    answer(call!(raw::lova_listed; number, [] => [five]))
}
