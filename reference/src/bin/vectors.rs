//! Prints small random cases as lines; the seed is the first argument, 1 where there is none.

use reference::digits::digits;
use reference::operations::{join, relation, verdict, Answer, Profile};
use reference::rng::Rng;
use reference::settings::{refusal, shape, Parameters};
use reference::tree::{fold, honest_message, leaf, Message, Node};

/// The five numbers as text.
fn five(p: &Parameters) -> String {
    format!("n={} m={} t={} b={} B={}", p.n, p.m, p.t, p.b, p.bound)
}

/// A number that may be 2^128 or more.
fn large(number: Option<u128>) -> String {
    number.map_or("2^128 or more".to_string(), |value| value.to_string())
}

/// One setting with its refusal and what follows from the five numbers.
fn print_setting(p: &Parameters) {
    let rest = match refusal(p) {
        1..=3 => String::new(),
        _ => format!(" k={} N={} growth={} width={}", p.k(), p.columns(), large(p.growth()), large(p.width())),
    };
    println!("{} refusal={}{}", five(p), refusal(p), rest);
}

/// The accepted setting with fewest digit columns for n, m, t and a range of bases: then least b, then least B.
fn smallest(n: u64, m: u64, t: u64, bases: std::ops::RangeInclusive<u64>) -> Option<Parameters> {
    let mut best: Option<Parameters> = None;
    for b in bases {
        for k in 2u32..=31 {
            // The least B that has k digits and holds growth; where it has more digits there is none for this k.
            let (Some(low), h) = ((b as u128).checked_pow(2 * (k - 2)), (b / 2) as u128) else { break };
            let least = low.max((2 * k as u128 * t as u128 * h).pow(2) * m as u128);
            let p = Parameters { n, m, t, b, bound: least.min(u64::MAX as u128) as u64 };
            if refusal(&p) == 0 && best.is_none_or(|other| p.columns() < other.columns()) {
                best = Some(p);
            }
        }
    }
    best
}

/// A random setting near the borders of the rules.
fn random_setting(rng: &mut Rng) -> Parameters {
    let b = match rng.word() % 3 {
        0 => rng.between(1, 6),
        1 => rng.between(2, 200),
        _ => rng.between(2, 66000),
    };
    Parameters {
        n: rng.between(0, 70) as u64,
        m: (1u64 << rng.between(0, 12)) + rng.between(0, 3) as u64,
        t: rng.between(1, 16) as u64,
        b: b as u64,
        bound: rng.word() >> rng.between(0, 63),
    }
}

/// Entries: name, shape, the entries themselves.
fn print_entries<T: ToString>(name: &str, shape: &str, entries: &[T]) {
    let text: Vec<String> = entries.iter().map(T::to_string).collect();
    println!("  {name} {shape} = [{}]", text.join(", "));
}

/// A matrix by rows.
fn print_matrix<T: ToString>(name: &str, rows: usize, entries: &[T]) {
    print_entries(name, &format!("{rows}x{}", entries.len() / rows), entries);
}

/// What goes into a fold: A, the nodes, the message and the challenge.
struct Inputs {
    p: Parameters,
    profile: Profile,
    a: Vec<u64>,
    left: Node,
    right: Node,
    sent: Message,
    c: Vec<u8>,
}

/// Random inputs of an honest fold.
fn inputs(rng: &mut Rng, p: &Parameters, profile: Profile) -> Result<Inputs, u32> {
    let z = shape(p)?;
    let a: Vec<u64> = (0..z.n * z.m).map(|i| if i % 2 == 0 { rng.word() } else { rng.word() % 10 }).collect();
    let left = leaf(p, Profile::General, &a, &rng.witness(z.m, z.t, p.bound))?;
    let right = leaf(p, profile, &a, &rng.witness(z.m, profile.right(&z), p.bound))?;
    // Drawn again until the folded witness has no zero entry, so that the case says something.
    let mut c = rng.challenge(z.columns * z.t);
    while fold(p, profile, &a, &left, &right, &c)?.1.s.contains(&0) {
        c = rng.challenge(z.columns * z.t);
    }
    let sent = honest_message(p, profile, &a, &left.s, &right.s)?;
    Ok(Inputs { p: *p, profile, a, left, right, sent, c })
}

/// The matrices that go into a fold, and its message.
fn print_inputs(x: &Inputs) {
    let (p, sent) = (&x.p, &x.sent);
    let (n, m, t, right) = (p.n as usize, p.m as usize, p.t as usize, x.right.s.len() / p.m as usize);
    let form = if x.profile == Profile::Fresh { "fresh fold" } else { "fold" };
    println!("{form} {} k={} N={} h={} H={}", five(p), p.k(), p.columns(), p.h(), large(p.product_limit()));
    print_matrix("powers", 1, &p.powers()[..p.k() as usize]);
    print_matrix("A", n, &x.a);
    print_matrix("S1", m, &x.left.s);
    print_matrix("S2", m, &x.right.s);
    print_matrix("C", p.columns() as usize, &x.c);
    print_matrix("T1", n, &x.left.t);
    print_matrix("D1", t, &x.left.d);
    print_matrix("T2", n, &x.right.t);
    print_matrix("D2", right, &x.right.d);
    print_matrix("V", t, &sent.v);
    print_matrix("S~", m, &sent.ss);
    print_matrix("T~", n, &sent.tt);
    print_entries("D~", &format!("triangle of {} rows", sent.ss.len() / m), &sent.dd);
}

/// The joined instance, the verdict and the folded node.
fn print_outcome(x: &Inputs) -> Result<(), u32> {
    let (p, left, right) = (&x.p, &x.left, &x.right);
    let (n, m, t) = (p.n as usize, p.m as usize, p.t as usize);
    let (mut joined_t, mut joined_d, mut leaves) = (vec![0; 2 * n * t], vec![0; 4 * t * t], 0);
    join(p, x.profile, left.instance(), right.instance(), &x.sent.v, &mut joined_t, &mut joined_d, &mut leaves);
    print_matrix("joined T", n, &joined_t);
    print_matrix("joined D", 2 * t, &joined_d);
    println!("  joined leaves = {leaves}");
    let (answer, folded) = fold(p, x.profile, &x.a, left, right, &x.c)?;
    println!("  verdict = {}", answer.word());
    print_matrix("T'", n, &folded.t);
    print_matrix("D'", t, &folded.d);
    println!("  leaves = {}", folded.leaves);
    print_matrix("S'", m, &folded.s);
    println!("  relation = {}", relation(p, &x.a, &folded.t, &folded.d, &folded.s).word());
    Ok(())
}

/// The verdicts on the message with an entry of T~ changed, one of D~, and both.
fn print_damaged(x: &Inputs) {
    let (one, two, sent) = (x.left.instance(), x.right.instance(), &x.sent);
    let judge = |tt: &[u64], dd: &[i64]| -> Answer {
        let (mut t, mut d, mut leaves) = (vec![0; one.t.len()], vec![0; one.d.len()], 0);
        verdict(&x.p, x.profile, one, two, &sent.v, tt, dd, &x.c, &mut t, &mut d, &mut leaves)
    };
    let (mut tt, mut dd) = (sent.tt.clone(), sent.dd.clone());
    tt[1] = tt[1].wrapping_add(1);
    dd[1] += if dd[1] > 0 { -1 } else { 1 };
    println!("  T~[1] now {}: verdict = {}", tt[1], judge(&tt, &sent.dd).word());
    println!("  D~[1] now {}: verdict = {}", dd[1], judge(&sent.tt, &dd).word());
    println!("  both: verdict = {}", judge(&tt, &dd).word());
}

/// One whole fold with all its matrices, and two damaged messages.
fn print_fold(rng: &mut Rng, p: &Parameters, profile: Profile) -> Result<(), u32> {
    let x = inputs(rng, p, profile)?;
    print_inputs(&x);
    print_outcome(&x)?;
    print_damaged(&x);
    Ok(())
}

/// Whole folds at the smallest settings with some n, m, t and bases.
fn print_folds(rng: &mut Rng) {
    let general = [(2, 1, 1, 2..=2000), (1, 2, 1, 6..=6), (1, 1, 2, 2..=2000), (1, 2, 2, 2..=2000)];
    let fresh = [(1, 1, 2, 2..=2000), (1, 2, 2, 2..=2000), (1, 1, 3, 2..=2000)];
    let folds = general.map(|sizes| (Profile::General, sizes)).into_iter();
    for (profile, (n, m, t, bases)) in folds.chain(fresh.map(|sizes| (Profile::Fresh, sizes))) {
        if let Some(p) = smallest(n, m, t, bases) {
            if let Err(number) = print_fold(rng, &p, profile) {
                println!("fold {} refused {number}", five(&p));
            }
        }
    }
}

/// Settings, digits and folds, in this order.
fn main() {
    let seed = std::env::args().nth(1).and_then(|text| text.parse().ok()).unwrap_or(1);
    let mut rng = Rng::new(seed);

    println!("seed {seed}");
    println!("\nrandom settings, two for each refusal");
    for wanted in 0..=6 {
        for _ in 0..2 {
            let p = std::iter::repeat_with(|| random_setting(&mut rng)).find(|p| refusal(p) == wanted);
            p.iter().for_each(print_setting);
        }
    }

    println!("\nfewest digit columns: all bases, then base by base");
    for t in 1..=2 {
        for m in 1..=2 {
            smallest(1, m, t, 2..=2000).iter().for_each(print_setting);
            for b in 2..=10 {
                smallest(1, m, t, b..=b).iter().for_each(print_setting);
            }
        }
    }

    println!("\ndigits of random entries");
    for (b, k) in [(2, 5), (3, 3), (4, 3), (5, 3), (9, 3), (10, 4), (32, 4), (1625, 3)] {
        let reach = (b as i128).pow(k as u32 - 1);
        for entry in [rng.between(0, reach), rng.between(-reach, 0), rng.between(-reach, reach)] {
            println!("b={b} k={k} entry={entry}: {:?}", digits(entry as i64, b, k));
        }
    }
    println!("b=2 k=5 entry={}: {:?}", i64::MIN, digits(i64::MIN, 2, 5));
    println!("b=3 k=5 entry={}: {:?}", i64::MIN, digits(i64::MIN, 3, 5));

    println!("\nwhole folds, matrices by rows");
    print_folds(&mut rng);
}
