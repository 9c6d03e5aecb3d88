//! The functions of the static library as C sees them, and how they are called.
//!
//! The five numbers of a setting come first, where there is one; each slice is a pointer and a length. The number of
//! leaves under an instance stands after its slices: as a number where the instance is read, as a pointer where it is
//! written. Every function answers 0, a refusal (1 to 12, 15, 16, 20, 24 or 25), or one of the words from 100 on.

/// The code of a C function for the five numbers of a setting, where it has one, the slices that it reads and those
/// that it writes. What follows the slices of an instance is its number of leaves, or a reference to it. A number that
/// comes first where there is no setting stands after a semicolon.
macro_rules! call {
    (
        $function:path, $five:expr,
        $([$($read:expr),*] $($leaves:expr)?),* => [$($written:expr),*] $($leaves_out:expr)?
    ) => {{
        let [n, m, t, b, bound] = $five;
        // SAFETY: each pointer has the length of its slice, and a slice is lent for the call alone,
        // an output exclusively; so is the number of leaves that is written.
        unsafe {
            $function(
                n, m, t, b, bound,
                $($($read.as_ptr(), $read.len(),)* $($leaves,)?)*
                $($written.as_mut_ptr(), $written.len(),)*
                $($leaves_out,)?
            )
        }
    }};
    ($function:path $(; $number:expr)?, [$($read:expr),*] => [$($written:expr),*]) => {
        // SAFETY: as above.
        unsafe { $function($($number,)? $($read.as_ptr(), $read.len(),)* $($written.as_mut_ptr(), $written.len(),)*) }
    };
}
pub(crate) use call;

extern "C" {
    pub fn lova_commit(
        n: u64, m: u64, t: u64, b: u64, bound: u64,
        a: *const u64, a_len: usize, s: *const i64, s_len: usize,
        t_out: *mut u64, t_out_len: usize, d_out: *mut i64, d_out_len: usize, leaves_out: *mut u32,
    ) -> u8;

    pub fn lova_message(
        n: u64, m: u64, t: u64, b: u64, bound: u64,
        a: *const u64, a_len: usize, s1: *const i64, s1_len: usize, s2: *const i64, s2_len: usize,
        v_out: *mut i64, v_out_len: usize, tt_out: *mut u64, tt_out_len: usize,
        dd_out: *mut i64, dd_out_len: usize, ss_out: *mut i64, ss_out_len: usize,
    ) -> u8;

    pub fn lova_fold_witness(
        n: u64, m: u64, t: u64, b: u64, bound: u64,
        ss: *const i64, ss_len: usize, c: *const u8, c_len: usize, s_out: *mut i64, s_out_len: usize,
    ) -> u8;

    pub fn lova_recompose(
        n: u64, m: u64, t: u64, b: u64, bound: u64,
        ss: *const i64, ss_len: usize, s1_out: *mut i64, s1_out_len: usize, s2_out: *mut i64, s2_out_len: usize,
    ) -> u8;

    pub fn lova_join(
        n: u64, m: u64, t: u64, b: u64, bound: u64,
        t1: *const u64, t1_len: usize, d1: *const i64, d1_len: usize, leaves1: u32,
        t2: *const u64, t2_len: usize, d2: *const i64, d2_len: usize, leaves2: u32, v: *const i64, v_len: usize,
        t_out: *mut u64, t_out_len: usize, d_out: *mut i64, d_out_len: usize, leaves_out: *mut u32,
    ) -> u8;

    pub fn lova_verify(
        n: u64, m: u64, t: u64, b: u64, bound: u64,
        t1: *const u64, t1_len: usize, d1: *const i64, d1_len: usize, leaves1: u32,
        t2: *const u64, t2_len: usize, d2: *const i64, d2_len: usize, leaves2: u32, v: *const i64, v_len: usize,
        tt: *const u64, tt_len: usize, dd: *const i64, dd_len: usize, c: *const u8, c_len: usize,
        t_out: *mut u64, t_out_len: usize, d_out: *mut i64, d_out_len: usize, leaves_out: *mut u32,
    ) -> u8;

    pub fn lova_commit_fresh(
        n: u64, m: u64, t: u64, b: u64, bound: u64,
        a: *const u64, a_len: usize, vector: *const i64, vector_len: usize,
        t_out: *mut u64, t_out_len: usize, d_out: *mut i64, d_out_len: usize, leaves_out: *mut u32,
    ) -> u8;

    pub fn lova_message_fresh(
        n: u64, m: u64, t: u64, b: u64, bound: u64,
        a: *const u64, a_len: usize, s1: *const i64, s1_len: usize, vector: *const i64, vector_len: usize,
        v_out: *mut i64, v_out_len: usize, tt_out: *mut u64, tt_out_len: usize,
        dd_out: *mut i64, dd_out_len: usize, ss_out: *mut i64, ss_out_len: usize,
    ) -> u8;

    pub fn lova_fold_witness_fresh(
        n: u64, m: u64, t: u64, b: u64, bound: u64,
        ss: *const i64, ss_len: usize, c: *const u8, c_len: usize, s_out: *mut i64, s_out_len: usize,
    ) -> u8;

    pub fn lova_recompose_fresh(
        n: u64, m: u64, t: u64, b: u64, bound: u64,
        ss: *const i64, ss_len: usize, s1_out: *mut i64, s1_out_len: usize, vector_out: *mut i64, vector_out_len: usize,
    ) -> u8;

    pub fn lova_join_fresh(
        n: u64, m: u64, t: u64, b: u64, bound: u64,
        t1: *const u64, t1_len: usize, d1: *const i64, d1_len: usize, leaves1: u32,
        t2: *const u64, t2_len: usize, d2: *const i64, d2_len: usize, leaves2: u32, v: *const i64, v_len: usize,
        t_out: *mut u64, t_out_len: usize, d_out: *mut i64, d_out_len: usize, leaves_out: *mut u32,
    ) -> u8;

    pub fn lova_verify_fresh(
        n: u64, m: u64, t: u64, b: u64, bound: u64,
        t1: *const u64, t1_len: usize, d1: *const i64, d1_len: usize, leaves1: u32,
        t2: *const u64, t2_len: usize, d2: *const i64, d2_len: usize, leaves2: u32, v: *const i64, v_len: usize,
        tt: *const u64, tt_len: usize, dd: *const i64, dd_len: usize, c: *const u8, c_len: usize,
        t_out: *mut u64, t_out_len: usize, d_out: *mut i64, d_out_len: usize, leaves_out: *mut u32,
    ) -> u8;

    pub fn lova_test_relation(
        n: u64, m: u64, t: u64, b: u64, bound: u64,
        a: *const u64, a_len: usize, t_in: *const u64, t_in_len: usize,
        d_in: *const i64, d_in_len: usize, s: *const i64, s_len: usize,
    ) -> u8;

    pub fn lova_setting(
        n: u64, m: u64, t: u64, b: u64, bound: u64, record: *mut u64, record_len: usize,
    ) -> u8;

    pub fn lova_listed(number: u64, five: *mut u64, five_len: usize) -> u8;

    pub fn lova_next_fold(
        weights: *const u64, weights_len: usize, waiting: *mut u32, waiting_len: usize, turn: *mut u64, turn_len: usize,
    ) -> u8;

    pub fn lova_count_zeros(n: u64, e: *const i64, e_len: usize, count: *mut u64, count_len: usize) -> u8;
}
