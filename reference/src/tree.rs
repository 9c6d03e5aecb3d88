//! Trees of folds: the honest calls, and the plain tree.

use crate::digits::digit_matrix;
use crate::matrices::{beside, product, repeated, triangle_length, whole, words};
use crate::operations::*;
use crate::settings::{shape, Parameters, Shape};

/// A leaf with a witness, or a fold of a left and a right tree with a challenge; the right child may be a fresh leaf,
/// which is its vector.
#[derive(Clone, Debug)]
pub enum Tree {
    Leaf(Vec<i64>),
    Fold(Box<Tree>, Box<Tree>, Vec<u8>),
    FoldFresh(Box<Tree>, Vec<i64>, Vec<u8>),
}

impl Tree {
    /// How many leaves the tree has.
    pub fn leaves(&self) -> u64 {
        match self {
            Tree::Leaf(_) => 1,
            Tree::Fold(left, right, _) => left.leaves() + right.leaves(),
            Tree::FoldFresh(left, ..) => left.leaves() + 1,
        }
    }
}

/// An instance T, D with the number of leaves under it, and its witness S.
#[derive(Clone, Debug, Default, PartialEq, Eq)]
pub struct Node {
    pub t: Vec<u64>,
    pub d: Vec<i64>,
    pub leaves: u32,
    pub s: Vec<i64>,
}

impl Node {
    /// The instance, as it is lent to a call.
    pub fn instance(&self) -> Instance<'_> {
        Instance { t: &self.t, d: &self.d, leaves: self.leaves }
    }
}

/// The prover's message V, T~, D~, a lower triangle, and the digits S~ that the prover keeps.
#[derive(Clone, Debug, PartialEq, Eq)]
pub struct Message {
    pub v: Vec<i64>,
    pub tt: Vec<u64>,
    pub dd: Vec<i64>,
    pub ss: Vec<i64>,
}

/// What outputs hold before a call; any value would do.
const HELD: i64 = 77;

/// The matrix that the plain tree makes; nothing for a refused setting or a leaf or C that does not fit it.
pub fn plain(p: &Parameters, tree: &Tree) -> Option<Vec<i64>> {
    let z = shape(p).ok()?;
    match tree {
        Tree::Leaf(s) => (s.len() == z.m * z.t).then(|| s.clone()),
        Tree::Fold(left, right, c) => plain_fold(&z, &plain(p, left)?, &plain(p, right)?, c),
        Tree::FoldFresh(left, v, c) if v.len() == z.m => plain_fold(&z, &plain(p, left)?, &repeated(v, 1, 0, z.t), c),
        Tree::FoldFresh(..) => None,
    }
}

/// The digits of [S1 S2] times C; nothing for a C that does not fit the setting.
fn plain_fold(z: &Shape, s1: &[i64], s2: &[i64], c: &[u8]) -> Option<Vec<i64>> {
    let digits = digit_matrix(&beside(s1, s2, z.m, z.t), z.m, 2 * z.t, z.b, z.k);
    let c = challenge_values(c).filter(|c| c.len() == z.columns * z.t)?;
    Some(words(&product(&whole(&digits), &whole(&c), z.m, z.columns, z.t)))
}

/// The number of a refusal as an error, any other answer as it is.
fn accepted(answer: Answer) -> Result<Answer, u32> {
    match answer {
        Answer::Refused(number) => Err(number),
        other => Ok(other),
    }
}

/// The honest leaf: commit's instance with its witness.
pub fn leaf(p: &Parameters, profile: Profile, a: &[u64], s: &[i64]) -> Result<Node, u32> {
    let z = shape(p)?;
    let right = profile.right(&z);
    let mut t = vec![HELD as u64; z.n * right];
    let mut d = vec![HELD; right * right];
    let mut leaves = HELD as u32;
    accepted(commit(p, profile, a, s, &mut t, &mut d, &mut leaves))?;
    Ok(Node { t, d, leaves, s: s.to_vec() })
}

/// The honest message for two witnesses.
pub fn honest_message(p: &Parameters, profile: Profile, a: &[u64], s1: &[i64], s2: &[i64]) -> Result<Message, u32> {
    let z = shape(p)?;
    let columns = profile.columns(&z);
    let mut v = vec![HELD; z.t * profile.right(&z)];
    let mut tt = vec![HELD as u64; z.n * columns];
    let mut dd = vec![HELD; triangle_length(columns)];
    let mut ss = vec![HELD; z.m * columns];
    accepted(message(p, profile, a, s1, s2, &mut v, &mut tt, &mut dd, &mut ss))?;
    Ok(Message { v, tt, dd, ss })
}

/// The honest fold of two nodes: the verdict and the folded node.
pub fn fold(
    p: &Parameters, profile: Profile, a: &[u64], left: &Node, right: &Node, c: &[u8],
) -> Result<(Answer, Node), u32> {
    let z = shape(p)?;
    let sent = honest_message(p, profile, a, &left.s, &right.s)?;
    let mut joined_t = vec![HELD as u64; 2 * z.n * z.t];
    let mut joined_d = vec![HELD; 4 * z.t * z.t];
    let mut joined_leaves = HELD as u32;
    let (one, two) = (left.instance(), right.instance());
    accepted(join(p, profile, one, two, &sent.v, &mut joined_t, &mut joined_d, &mut joined_leaves))?;
    let mut t = vec![HELD as u64; z.n * z.t];
    let mut d = vec![HELD; z.t * z.t];
    let mut leaves = HELD as u32;
    let answer = verdict(p, profile, one, two, &sent.v, &sent.tt, &sent.dd, c, &mut t, &mut d, &mut leaves);
    let answer = accepted(answer)?;
    let mut s = vec![HELD; z.m * z.t];
    accepted(folded_witness(p, profile, &sent.ss, c, &mut s))?;
    Ok((answer, Node { t, d, leaves, s }))
}

/// The honest tree: every verdict, folds from the leaves up and left before right, and the root.
pub fn honest(p: &Parameters, a: &[u64], tree: &Tree) -> Result<(Vec<Answer>, Node), u32> {
    let (mut answers, (answer, node)) = match tree {
        Tree::Leaf(s) => return Ok((Vec::new(), leaf(p, Profile::General, a, s)?)),
        Tree::Fold(left, right, c) => {
            let (mut answers, left) = honest(p, a, left)?;
            let (others, right) = honest(p, a, right)?;
            answers.extend(others);
            (answers, fold(p, Profile::General, a, &left, &right, c)?)
        }
        Tree::FoldFresh(left, v, c) => {
            let (answers, left) = honest(p, a, left)?;
            let right = leaf(p, Profile::Fresh, a, v)?;
            (answers, fold(p, Profile::Fresh, a, &left, &right, c)?)
        }
    };
    answers.push(answer);
    Ok((answers, node))
}
