//! What is timed: the digits and the four costly products alone, the seven operations, and those with a fresh witness.

use crate::cases::Case;
use crate::library;
use crate::timing::medians;
use idiomatic_native as native;
use idiomatic_plain as plain;

/// A row of the table: nanoseconds of the library, of idiomatic Rust with -O, and of the same for this processor; for a
/// fresh call, also those of the library's general one.
pub struct Row {
    pub name: &'static str,
    pub times: [f64; 3],
    pub general: Option<f64>,
}

/// What a call writes: its code, a matrix of words and up to three of whole numbers, and a number of leaves.
#[derive(Clone, Debug, Default, PartialEq)]
struct Out {
    code: u8,
    words: Vec<u64>,
    whole: [Vec<i64>; 3],
    leaves: u32,
}

impl Out {
    /// Outputs of these lengths.
    fn of(words: usize, whole: [usize; 3]) -> Out {
        Out { words: vec![0; words], whole: whole.map(|length| vec![0; length]), ..Out::default() }
    }
}

type Call = fn(&Case, &mut Out);

/// What a row times: a call by the library, by idiomatic Rust with -O and by the same for this processor, and its outputs.
struct Work {
    name: &'static str,
    out: Out,
    calls: [Call; 3],
}

/// Times a work's calls, which take turns with one another and with the library's general call; what the three variants
/// wrote must be equal.
fn row(z: &Case, work: Work, general: Option<Work>) -> Row {
    let Work { name, out, calls } = work;
    let mut outs = vec![out; 3];
    let mut calls = calls.to_vec();
    if let Some(general) = general {
        outs.push(general.out);
        calls.push(general.calls[0]);
    }
    let mut turns: Vec<Box<dyn FnMut() + '_>> = Vec::new();
    for (call, out) in calls.into_iter().zip(&mut outs) {
        turns.push(Box::new(move || call(z, out)));
    }
    let times = medians(&mut turns);
    drop(turns);
    assert!(outs.iter().all(|out| out.code == 0), "{name} is done, yes or member");
    assert!(outs[0] == outs[1] && outs[1] == outs[2], "{name}: the outputs are equal");
    Row { name, times: [times[0], times[1], times[2]], general: times.get(3).copied() }
}

/// The three variants of a call `$call(z, o)`, which is written once for a module `$m`.
macro_rules! variants {
    ($m:ident, $z:ident, $o:ident, $code:expr) => {{
        let calls: [Call; 3] = [
            |$z, $o| { use library as $m; $code },
            |$z, $o| { use plain as $m; $code },
            |$z, $o| { use native as $m; $code },
        ];
        calls
    }};
}

/// The digits and the four costly products alone.
fn parts(z: &Case) -> [Work; 5] {
    let ss: [Call; 3] = [
        |z, o| library::ss(&z.both, z.p[3], z.k, &mut o.whole[0]),
        |z, o| plain::digit_rows(&z.both, z.p[3], z.k, &mut o.whole[0]),
        |z, o| native::digit_rows(&z.both, z.p[3], z.k, &mut o.whole[0]),
    ];
    let dd: [Call; 3] = [
        |z, o| library::dd(&z.ss, z.m, z.columns, &mut o.whole[0]),
        |z, o| plain::lower_products(&z.ss, z.columns, &mut o.whole[0]),
        |z, o| native::lower_products(&z.ss, z.columns, &mut o.whole[0]),
    ];
    let tt: [Call; 3] = [
        |z, o| library::tt(&z.a, &z.ss, z.n, z.m, z.columns, &mut o.words),
        |z, o| plain::commitment(&z.a, &z.ss, z.m, z.columns, &mut o.words),
        |z, o| native::commitment(&z.a, &z.ss, z.m, z.columns, &mut o.words),
    ];
    let d: [Call; 3] = [
        |z, o| library::d(&z.dd, &z.c, z.columns, z.t, &mut o.whole[0]),
        |z, o| plain::fold_products(&z.dd, &z.c, z.columns, z.t, &mut o.whole[0]),
        |z, o| native::fold_products(&z.dd, &z.c, z.columns, z.t, &mut o.whole[0]),
    ];
    let s: [Call; 3] = [
        |z, o| library::s(&z.ss, &z.c, z.m, z.columns, z.t, &mut o.whole[0]),
        |z, o| plain::fold_small(&z.ss, &z.c, z.columns, z.t, &mut o.whole[0]),
        |z, o| native::fold_small(&z.ss, &z.c, z.columns, z.t, &mut o.whole[0]),
    ];
    [
        Work { name: "S~", out: Out::of(0, [z.m * z.columns, 0, 0]), calls: ss },
        Work { name: "D~", out: Out::of(0, [plain::triangle(z.columns), 0, 0]), calls: dd },
        Work { name: "T~", out: Out::of(z.n * z.columns, [0, 0, 0]), calls: tt },
        Work { name: "D'", out: Out::of(0, [z.t * z.t, 0, 0]), calls: d },
        Work { name: "S'", out: Out::of(0, [z.m * z.t, 0, 0]), calls: s },
    ]
}

/// The seven operations; both instances are leaves.
fn operations(z: &Case) -> [Work; 7] {
    let instance = || Out::of(z.n * z.t, [z.t * z.t, 0, 0]);
    let sent = Out::of(z.n * z.columns, [z.t * z.t, plain::triangle(z.columns), z.m * z.columns]);
    let message = variants!(m, z, o, {
        let [v, dd, ss] = &mut o.whole;
        o.code = m::message(z.p, &z.a, &z.s1, &z.s2, v, &mut o.words, dd, ss)
    });
    let verify = variants!(m, z, o, {
        let (t, d) = (&mut o.words, &mut o.whole[0]);
        o.code = m::verify(z.p, &z.t1, &z.d1, 1, &z.t2, &z.d2, 1, &z.v, &z.tt, &z.dd, &z.c, t, d, &mut o.leaves)
    });
    let fold = variants!(m, z, o, o.code = m::fold_witness(z.p, &z.ss, &z.c, &mut o.whole[0]));
    let recompose = variants!(m, z, o, {
        let [s1, s2, _] = &mut o.whole;
        o.code = m::recompose(z.p, &z.ss, s1, s2)
    });
    let commit = variants!(m, z, o, {
        o.code = m::commit(z.p, &z.a, &z.s1, &mut o.words, &mut o.whole[0], &mut o.leaves)
    });
    let test = variants!(m, z, o, o.code = m::test_relation(z.p, &z.a, &z.t1, &z.d1, &z.s1));
    let join = variants!(m, z, o, {
        let (t, d) = (&mut o.words, &mut o.whole[0]);
        o.code = m::join(z.p, &z.t1, &z.d1, 1, &z.t2, &z.d2, 1, &z.v, t, d, &mut o.leaves)
    });
    [
        Work { name: "message", out: sent, calls: message },
        Work { name: "verdict", out: instance(), calls: verify },
        Work { name: "folded witness", out: Out::of(0, [z.m * z.t, 0, 0]), calls: fold },
        Work { name: "recompose", out: Out::of(0, [z.m * z.t, z.m * z.t, 0]), calls: recompose },
        Work { name: "commit", out: instance(), calls: commit },
        Work { name: RELATION_TEST, out: Out::of(0, [0, 0, 0]), calls: test },
        Work { name: "join", out: Out::of(2 * z.n * z.t, [4 * z.t * z.t, 0, 0]), calls: join },
    ]
}

/// The one operation that has no fresh form.
const RELATION_TEST: &str = "relation test";

/// The operations with a fresh witness, in the order of the general ones.
fn fresh_operations(z: &Case) -> [Work; 6] {
    let columns = z.fresh.columns;
    let message = variants!(m, z, o, {
        let [v, dd, ss] = &mut o.whole;
        o.code = m::message_fresh(z.p, &z.a, &z.s1, &z.fresh.vector, v, &mut o.words, dd, ss)
    });
    let verify = variants!(m, z, o, {
        let (x, t, d) = (&z.fresh, &mut o.words, &mut o.whole[0]);
        o.code = m::verify_fresh(z.p, &z.t1, &z.d1, 1, &x.t2, &x.d2, 1, &x.v, &x.tt, &x.dd, &z.c, t, d, &mut o.leaves)
    });
    let fold = variants!(m, z, o, o.code = m::fold_witness_fresh(z.p, &z.fresh.ss, &z.c, &mut o.whole[0]));
    let recompose = variants!(m, z, o, {
        let [s1, vector, _] = &mut o.whole;
        o.code = m::recompose_fresh(z.p, &z.fresh.ss, s1, vector)
    });
    let commit = variants!(m, z, o, {
        o.code = m::commit_fresh(z.p, &z.a, &z.fresh.vector, &mut o.words, &mut o.whole[0], &mut o.leaves)
    });
    let join = variants!(m, z, o, {
        let (x, t, d) = (&z.fresh, &mut o.words, &mut o.whole[0]);
        o.code = m::join_fresh(z.p, &z.t1, &z.d1, 1, &x.t2, &x.d2, 1, &x.v, t, d, &mut o.leaves)
    });
    let sent = Out::of(z.n * columns, [z.t, plain::triangle(columns), z.m * columns]);
    [
        Work { name: "fresh message", out: sent, calls: message },
        Work { name: "fresh verdict", out: Out::of(z.n * z.t, [z.t * z.t, 0, 0]), calls: verify },
        Work { name: "fresh witness", out: Out::of(0, [z.m * z.t, 0, 0]), calls: fold },
        Work { name: "fresh recompose", out: Out::of(0, [z.m * z.t, z.m, 0]), calls: recompose },
        Work { name: "fresh commit", out: Out::of(z.n, [1, 0, 0]), calls: commit },
        Work { name: "fresh join", out: Out::of(2 * z.n * z.t, [4 * z.t * z.t, 0, 0]), calls: join },
    ]
}

/// The rows of one setting in the general form.
pub fn rows(z: &Case) -> Vec<Row> {
    parts(z).into_iter().chain(operations(z)).map(|work| row(z, work, None)).collect()
}

/// The rows of one setting with a fresh witness; where t is 1 both forms are the same.
pub fn fresh_rows(z: &Case) -> Vec<Row> {
    if z.t == 1 {
        return Vec::new();
    }
    let general = operations(z).into_iter().filter(|work| work.name != RELATION_TEST);
    fresh_operations(z).into_iter().zip(general).map(|(fresh, general)| row(z, fresh, Some(general))).collect()
}
