//! Refusals of the first line.

use crate::stored::StoredFile;

/// Names with the five fields of a refused first line; what follows it would be good at setting 1.
pub(crate) const REFUSED: [(&str, &str); 21] = [
    ("param_n_zero_1", "0\t1\t1\t2\t100"),
    ("param_n_65_1", "65\t1\t1\t2\t100"),
    ("param_n_two_64_less_one_1", "18446744073709551615\t1\t1\t2\t100"),
    ("param_m_zero_1", "1\t0\t1\t2\t100"),
    ("param_m_4097_1", "1\t4097\t1\t32\t1048576"),
    ("param_t_zero_1", "1\t1\t0\t2\t100"),
    ("param_t_17_1", "1\t1\t17\t32\t1048576"),
    ("param_b_one_2", "1\t1\t1\t1\t100"),
    ("param_b_65536_2", "1\t1\t1\t65536\t4611686018427387904"),
    ("param_bound_zero_3", "1\t1\t1\t2\t0"),
    ("param_bound_two_62_and_one_3", "1\t1\t1\t2\t4611686018427387905"),
    ("param_columns_4", "1\t1\t16\t2\t1073741824"),
    ("param_growth_5", "1\t1\t1\t2\t99"),
    ("param_width_6", "1\t4096\t1\t2\t281474976710656"),
    ("param_n_9_14", "9\t1\t1\t2\t100"),
    ("param_m_17_14", "1\t17\t1\t32\t1048576"),
    ("param_t_3_14", "1\t1\t3\t32\t1048576"),
    ("param_k_9_14", "1\t1\t1\t2\t16384"),
    ("param_5_before_14_5", "9\t17\t3\t2\t99"),
    ("param_6_before_14_6", "16\t256\t2\t128\t268435456"),
    ("param_13_before_1_13", "0\t01\t1\t2\t100"),
];

/// All files of this subject.
pub fn files() -> Vec<StoredFile> {
    let refused = |(name, fields): &(&str, &str)| StoredFile::new(*name, format!("param\t{fields}\na\t3\nleaf\t7\n"));
    REFUSED.iter().map(refused).collect()
}
