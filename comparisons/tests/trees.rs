//! Honest trees by the bindings, with fresh leaves: every verdict is yes, and the root is the plain tree's and counts its
//! leaves.

use comparisons::calls::Operation;
use comparisons::inputs::{challenge, second, shaped, witness, words};
use comparisons::seed::{below, generator, once_in, pick, seed};
use comparisons::settings::{accepted_where, FULL};
use comparisons::tally::Tally;
use lova::{Instance, Membership, Setting, Verdict};
use reference::matrices::{beside, inner_products, repeated, triangle_length, whole, wrapped, wrapping_product};
use reference::operations::Profile::{self, Fresh, General};
use reference::rng::Rng;
use reference::settings::{Parameters, Shape, LIST};
use reference::tree::{plain, Node, Tree};

/// How the leaves of a tree are divided.
#[derive(Clone, Copy, Debug)]
enum Form {
    Left,
    Right,
    Balanced,
    Any,
}

/// What the honest calls of a tree share.
struct Grower<'a> {
    p: Setting,
    z: &'a Shape,
    a: Vec<u64>,
    folds: usize,
    fresh: usize,
}

/// Whether a setting is small enough for many folds.
fn small(p: &Parameters) -> bool {
    Operation::Verify(General).work(p) <= 30_000
}

/// A tree with this number of leaves, all within B; of the leaves that are right children about half are fresh.
fn tree(rng: &mut Rng, p: &Parameters, leaves: usize, form: Form) -> Tree {
    if leaves == 1 {
        return Tree::Leaf(witness(rng, p));
    }
    let left = match form {
        Form::Left => leaves - 1,
        Form::Right => 1,
        Form::Balanced => leaves / 2,
        Form::Any => 1 + below(rng, leaves - 1),
    };
    let one = Box::new(tree(rng, p, left, form));
    let c = challenge(rng, (p.columns() * p.t as u128) as usize);
    if leaves - left == 1 && once_in(rng, 2) {
        return Tree::FoldFresh(one, witness(rng, &second(p, Fresh)), c);
    }
    Tree::Fold(one, Box::new(tree(rng, p, leaves - left, form)), c)
}

/// The instance of a node.
fn instance(node: &Node) -> Instance<'_> {
    Instance { t: &node.t, d: &node.d, leaves: node.leaves }
}

impl Grower<'_> {
    /// T = A S and D = S-transposed S, as the witness opens them.
    fn opened(&self, s: &[i64], columns: usize) -> (Vec<u64>, Vec<i128>) {
        let t = wrapping_product(&self.a, &wrapped(s), self.z.n, self.z.m, columns);
        (t, inner_products(s, s, self.z.m, columns))
    }

    /// The instance and witness of a tree, by the honest calls.
    fn grow(&mut self, tree: &Tree) -> Node {
        let node = match tree {
            Tree::Leaf(s) => self.leaf(General, s),
            Tree::Fold(left, right, c) => {
                let (left, right) = (self.grow(left), self.grow(right));
                self.fold(General, &left, &right, c)
            }
            Tree::FoldFresh(left, vector, c) => {
                let (left, right) = (self.grow(left), self.leaf(Fresh, vector));
                self.fresh += 1;
                self.fold(Fresh, &left, &right, c)
            }
        };
        assert_eq!((node.t.clone(), whole(&node.d)), self.opened(&node.s, self.z.t));
        node
    }

    /// A leaf: commit.
    fn leaf(&self, profile: Profile, s: &[i64]) -> Node {
        let right = profile.right(self.z);
        let (mut t, mut d) = (vec![9; self.z.n * right], vec![9; right * right]);
        let commit = if profile == Fresh { lova::commit_fresh } else { lova::commit };
        let leaves = commit(self.p, &self.a, s, &mut t, &mut d).expect("a witness within B").leaves;
        Node { t, d, leaves, s: s.to_vec() }
    }

    /// The joined instance is what both witnesses open, the second with t columns, and counts the leaves of both.
    fn check_join(&self, profile: Profile, one: &Node, two: &Node, v: &[i64]) {
        let (n, m, t) = (self.z.n, self.z.m, self.z.t);
        let (mut joined_t, mut joined_d) = (vec![9; 2 * n * t], vec![9; 4 * t * t]);
        let join = if profile == Fresh { lova::join_fresh } else { lova::join };
        let joined = join(self.p, instance(one), instance(two), v, &mut joined_t, &mut joined_d);
        assert_eq!(joined.map(|joined| joined.leaves), Ok(one.leaves + two.leaves));
        let second = repeated(&two.s, profile.right(self.z), 0, profile.times(self.z));
        assert_eq!((joined_t, whole(&joined_d)), self.opened(&beside(&one.s, &second, m, t), 2 * t));
    }

    /// A fold: message, join, verdict and folded witness.
    fn fold(&mut self, profile: Profile, one: &Node, two: &Node, c: &[u8]) -> Node {
        let (p, n, m, t, columns) = (self.p, self.z.n, self.z.m, self.z.t, profile.columns(self.z));
        let (mut v, mut tt) = (vec![9; t * profile.right(self.z)], vec![9; n * columns]);
        let (mut dd, mut ss) = (vec![9; triangle_length(columns)], vec![9; m * columns]);
        let message = if profile == Fresh { lova::message_fresh } else { lova::message };
        assert_eq!(message(p, &self.a, &one.s, &two.s, &mut v, &mut tt, &mut dd, &mut ss), Ok(()));
        self.check_join(profile, one, two, &v);
        let mut node = Node { t: vec![9; n * t], d: vec![9; t * t], leaves: 9, s: vec![9; m * t] };
        let verify = if profile == Fresh { lova::verify_fresh } else { lova::verify };
        let verdict = verify(p, instance(one), instance(two), &v, &tt, &dd, c, &mut node.t, &mut node.d);
        let Ok(Verdict::Yes(folded)) = verdict else {
            panic!("seed {}, fold {} at {p:?}: {verdict:?}", seed(), self.folds + 1)
        };
        node.leaves = folded.leaves;
        let fold_witness = if profile == Fresh { lova::fold_witness_fresh } else { lova::fold_witness };
        assert_eq!(fold_witness(p, &ss, c, &mut node.s), Ok(()));
        self.folds += 1;
        node
    }
}

/// Grow a tree by the bindings and hold it against the plain tree; the numbers of its folds and of its fresh leaves.
fn check(rng: &mut Rng, p: &Parameters, tree: &Tree) -> (usize, usize) {
    let setting = Setting::new(p.n, p.m, p.t, p.b, p.bound).expect("an accepted setting");
    let a = words(rng, (p.n * p.m) as usize);
    let mut grower = Grower { p: setting, z: &shaped(p), a, folds: 0, fresh: 0 };
    let root = grower.grow(tree);
    assert_eq!(Some(&root.s), plain(p, tree).as_ref(), "seed {}: the root at {p:?}", seed());
    assert_eq!(u64::from(root.leaves), tree.leaves(), "seed {}: the leaves at {p:?}", seed());
    let member = lova::test_relation(setting, &grower.a, &root.t, &root.d, &root.s);
    assert_eq!(member, Ok(Membership::Member));
    (grower.folds, grower.fresh)
}

/// Grow trees of random forms at settings that are drawn, and count them.
fn check_many(name: &str, trees: usize, leaves: usize, draw: impl Fn(&mut Rng, usize) -> Parameters) {
    let (mut rng, mut tally) = (generator(name), Tally::new(name));
    for number in 0..trees {
        let p = draw(&mut rng, number);
        let form = [Form::Any, Form::Left, Form::Balanced, Form::Right][number % 4];
        let leaves = if number < 4 { leaves } else { 1 + below(&mut rng, leaves) };
        let tree = tree(&mut rng, &p, leaves, form);
        let (folds, fresh) = check(&mut rng, &p, &tree);
        assert_eq!((folds, tree.leaves()), (leaves - 1, leaves as u64));
        tally.case(&format!("{form:?}"));
        (0..folds).for_each(|_| tally.note("yes"));
        (0..fresh).for_each(|_| tally.note(if p.t == 1 { "fresh at t = 1" } else { "fresh at t > 1" }));
    }
    tally.finish(&["Any", "Left", "Balanced", "Right", "yes", "fresh at t = 1", "fresh at t > 1"]);
}

#[test]
fn trees_of_the_house_list() {
    check_many("trees_of_the_house_list", 80, 300, |_, number| LIST[number / 4 % 4]);
}

#[test]
fn trees_at_random_settings() {
    check_many("trees_at_random_settings", 400, 200, |rng, _| accepted_where(rng, FULL, small));
}

#[test]
fn trees_at_tight_settings() {
    // B is the growth, so that a folded witness can be as long as any.
    let tight = [(1, 1, 1, 3, 36), (2, 2, 1, 3, 72), (1, 1, 1, 2, 100), (3, 5, 2, 10, 32000), (1, 2, 2, 9, 4608)];
    check_many("trees_at_tight_settings", 300, 300, |rng, _| {
        let (n, m, t, b, bound) = pick(rng, &tight);
        Parameters { n, m, t, b, bound }
    });
}

#[test]
fn trees_at_the_largest_settings() {
    // N = 512 with the largest n, m and t, for an odd base and an even one.
    let (mut rng, mut tally) =
        (generator("trees_at_the_largest_settings"), Tally::new("trees_at_the_largest_settings"));
    for (m, b, bound) in [(4096, 3, 22876792454961), (1024, 2, (1 << 30) - 1)] {
        let p = Parameters { n: 64, m, t: 16, b, bound };
        let left = Box::new(Tree::Leaf(witness(&mut rng, &p)));
        let vector = witness(&mut rng, &second(&p, Fresh));
        let tree = Tree::FoldFresh(left, vector, challenge(&mut rng, 512 * 16));
        assert_eq!((p.columns(), check(&mut rng, &p, &tree)), (512, (1, 1)));
        tally.case("yes");
    }
    tally.finish(&["yes"]);
}
