//! Honest trees against the plain tree.

mod common;
use common::*;
use reference::operations::{relation, Answer};
use reference::rng::Rng;
use reference::settings::{Parameters, LIST};
use reference::tree::{honest, plain, Tree};

/// Every verdict is yes, the root has one leaf more than there are folds, it is the plain tree's matrix, and the root's
/// instance has it as witness.
fn check(p: &Parameters, a: &[u64], tree: &Tree, folds: usize) {
    let (answers, root) = honest(p, a, tree).unwrap();
    assert_eq!(answers, vec![Answer::Yes; folds]);
    assert_eq!((u64::from(root.leaves), tree.leaves()), (folds as u64 + 1, folds as u64 + 1));
    assert_eq!(Some(&root.s), plain(p, tree).as_ref());
    assert_eq!(relation(p, a, &root.t, &root.d, &root.s), Answer::Member);
    let (n, m, t) = (p.n as usize, p.m as usize, p.t as usize);
    for j in 0..t {
        assert!(root.d[j * t + j] >= 0 && root.d[j * t + j] as u64 <= p.bound);
        for i in 0..t {
            let sum: i128 = (0..m).map(|l| root.s[l * t + i] as i128 * root.s[l * t + j] as i128).sum();
            assert_eq!(root.d[i * t + j] as i128, sum);
        }
        for i in 0..n {
            let mut sum = 0u64;
            for l in 0..m {
                sum = sum.wrapping_add(a[i * m + l].wrapping_mul(root.s[l * t + j] as u64));
            }
            assert_eq!(root.t[i * t + j], sum);
        }
    }
}

#[test]
fn example() {
    let c = vec![1, 1, 1, 0, 0, 2, 0, 2, 0, 0];
    let tree = Tree::Fold(Box::new(Tree::Leaf(vec![7])), Box::new(Tree::Leaf(vec![-5])), c);
    assert_eq!(plain(&LIST[0], &tree), Some(vec![5]));
    check(&LIST[0], &[3], &tree, 1);
}

/// The tree with an ordinary leaf, its vector repeated, in the place of each fresh one.
fn without_fresh(p: &Parameters, tree: &Tree) -> Tree {
    match tree {
        Tree::Leaf(_) => tree.clone(),
        Tree::Fold(left, right, c) => {
            Tree::Fold(Box::new(without_fresh(p, left)), Box::new(without_fresh(p, right)), c.clone())
        }
        Tree::FoldFresh(left, v, c) => {
            let s = v.iter().flat_map(|x| vec![*x; p.t as usize]).collect();
            Tree::Fold(Box::new(without_fresh(p, left)), Box::new(Tree::Leaf(s)), c.clone())
        }
    }
}

/// How many fresh leaves a tree has.
fn fresh_leaves(tree: &Tree) -> usize {
    match tree {
        Tree::Leaf(_) => 0,
        Tree::Fold(left, right, _) => fresh_leaves(left) + fresh_leaves(right),
        Tree::FoldFresh(left, ..) => 1 + fresh_leaves(left),
    }
}

#[test]
fn fresh_leaves_are_repeated_ones() {
    let mut rng = Rng::new(45);
    let mut fresh = 0;
    for round in 0..60 {
        let p = if round % 2 == 0 { LIST[1] } else { random_setting(&mut rng, 40) };
        let a = random_matrix(&mut rng, &p);
        let tree = random_tree(&mut rng, &p, 8);
        let other = without_fresh(&p, &tree);
        assert_eq!(honest(&p, &a, &tree), honest(&p, &a, &other));
        assert_eq!(plain(&p, &tree), plain(&p, &other));
        fresh += if p.t > 1 { fresh_leaves(&tree) } else { 0 };
    }
    assert!(fresh > 50, "{fresh}");
}

#[test]
fn settings_of_the_list() {
    let mut rng = Rng::new(41);
    for (row, rounds) in [(0, 150), (1, 40), (2, 2), (3, 4)] {
        let p = LIST[row];
        for round in 0..rounds {
            let leaves = if round == 0 { 40 } else { rng.between(1, 40) as usize };
            let leaves = if row > 1 { leaves.min(6) } else { leaves };
            let a = random_matrix(&mut rng, &p);
            let tree = random_tree(&mut rng, &p, leaves);
            check(&p, &a, &tree, leaves - 1);
        }
    }
}

#[test]
fn random_settings() {
    let mut rng = Rng::new(42);
    for _ in 0..80 {
        let p = random_setting(&mut rng, 64);
        let leaves = rng.between(1, 40) as usize;
        let a = random_matrix(&mut rng, &p);
        let tree = random_tree(&mut rng, &p, leaves);
        check(&p, &a, &tree, leaves - 1);
    }
}

#[test]
fn chains_and_right_leaning_trees() {
    let mut rng = Rng::new(43);
    for round in 0..20 {
        let p = if round % 2 == 0 { LIST[0] } else { random_setting(&mut rng, 32) };
        let a = random_matrix(&mut rng, &p);
        let mut tree = random_tree(&mut rng, &p, 1);
        for step in 0..39 {
            let other = Box::new(random_tree(&mut rng, &p, 1));
            let c = random_challenge(&mut rng, &p);
            let leans_left = if round < 10 { true } else { step % 3 == 0 };
            let (one, two) = if leans_left { (Box::new(tree), other) } else { (other, Box::new(tree)) };
            tree = Tree::Fold(one, two, c);
        }
        check(&p, &a, &tree, 39);
    }
}

#[test]
fn growth_is_reached_and_not_passed() {
    // b = 3, k = 3, N = 6, B = 36: 5 is −1 −1 1, so that 5 and 5 can make 6 and D' = 36 = B.
    let p = setting(1, 1, 1, 3, 36);
    let mut reached = false;
    for x in -6..=6i64 {
        for y in -6..=6i64 {
            for c in [[1; 6], [2; 6], [1, 1, 1, 2, 2, 2], [2, 1, 2, 1, 2, 1], [2, 2, 1, 2, 2, 1]] {
                let tree = Tree::Fold(Box::new(Tree::Leaf(vec![x])), Box::new(Tree::Leaf(vec![y])), c.to_vec());
                check(&p, &[5], &tree, 1);
                reached |= honest(&p, &[5], &tree).unwrap().1.d == [36];
            }
        }
    }
    assert!(reached);
}

#[test]
fn every_small_fold_of_setting_1() {
    let mut rng = Rng::new(44);
    for x in -10..=10i64 {
        for y in -10..=10i64 {
            let c = random_challenge(&mut rng, &LIST[0]);
            let tree = Tree::Fold(Box::new(Tree::Leaf(vec![x])), Box::new(Tree::Leaf(vec![y])), c);
            check(&LIST[0], &[rng.word()], &tree, 1);
        }
    }
}

#[test]
fn plain_tree_has_no_bound() {
    // A leaf above B: no honest tree, but the plain tree still makes a matrix, from the digits that there are.
    let c = vec![1; 10];
    let tree = Tree::Fold(Box::new(Tree::Leaf(vec![i64::MIN])), Box::new(Tree::Leaf(vec![32 + 3])), c);
    assert_eq!(plain(&LIST[0], &tree), Some(vec![2]));
    assert_eq!(honest(&LIST[0], &[3], &tree), Err(8));
}

#[test]
fn misfits_are_values() {
    let short = Tree::Leaf(vec![]);
    assert_eq!(plain(&LIST[0], &short), None);
    assert_eq!(honest(&LIST[0], &[3], &short), Err(7));
    assert_eq!(plain(&setting(1, 1, 1, 2, 99), &Tree::Leaf(vec![1])), None);
    let leaf = || Box::new(Tree::Leaf(vec![1]));
    assert_eq!(plain(&LIST[0], &Tree::Fold(leaf(), leaf(), vec![1; 9])), None);
    assert_eq!(plain(&LIST[0], &Tree::Fold(leaf(), leaf(), vec![3; 10])), None);
    assert_eq!(honest(&LIST[0], &[3], &Tree::Fold(leaf(), leaf(), vec![3; 10])), Err(9));
    let fresh = |v: Vec<i64>, c: u8| Tree::FoldFresh(leaf(), v, vec![c; 10]);
    assert_eq!(plain(&LIST[0], &fresh(vec![1, 1], 1)), None);
    assert_eq!(honest(&LIST[0], &[3], &fresh(vec![1, 1], 1)), Err(7));
    assert_eq!(honest(&LIST[0], &[3], &fresh(vec![11], 1)), Err(8));
    assert_eq!(plain(&LIST[0], &fresh(vec![1], 3)), None);
}
