//! Activity terms and their variants.

use std::cmp::Ordering;

#[derive(Clone, Copy, Debug, PartialEq, Eq)]
pub enum Kind {
    Seq,
    Pll,
    Xor,
}

#[derive(Clone, Debug, PartialEq, Eq)]
pub enum Term {
    Activity(usize),
    Group(Kind, Vec<Term>),
}

/// An activity of a term, with the groups above it from the top: their kinds, and under which child it stands.
pub struct Leaf {
    pub activity: usize,
    pub path: Vec<(Kind, usize)>,
}

impl Leaf {
    /// The kind of the group where two leaves part, and which of them stands under the earlier child.
    pub fn parts(&self, other: &Leaf) -> (Kind, Ordering) {
        let mut steps = self.path.iter().zip(&other.path);
        let (a, b) = steps.find(|(a, b)| a.1 != b.1).unwrap();
        (a.0, a.1.cmp(&b.1))
    }
}

impl Term {
    /// The letters and numbers of the term's nodes, in prefix order.
    pub fn nodes(&self) -> Vec<(char, usize)> {
        match self {
            Term::Activity(i) => vec![('a', *i)],
            Term::Group(kind, children) => {
                let letter = match kind {
                    Kind::Seq => 's',
                    Kind::Pll => 'p',
                    Kind::Xor => 'x',
                };
                let mut nodes = vec![(letter, children.len())];
                nodes.extend(children.iter().flat_map(Term::nodes));
                nodes
            }
        }
    }

    pub fn leaves(&self) -> Vec<Leaf> {
        let mut leaves = vec![];
        self.collect_leaves(&mut vec![], &mut leaves);
        leaves
    }

    fn collect_leaves(&self, path: &mut Vec<(Kind, usize)>, leaves: &mut Vec<Leaf>) {
        match self {
            Term::Activity(i) => leaves.push(Leaf { activity: *i, path: path.clone() }),
            Term::Group(kind, children) => {
                for (number, child) in children.iter().enumerate() {
                    path.push((*kind, number));
                    child.collect_leaves(path, leaves);
                    path.pop();
                }
            }
        }
    }

    /// Some variant has an activity twice: two of its nodes part at an s or p.
    pub fn has_activity_twice(&self) -> bool {
        let leaves = self.leaves();
        leaves
            .iter()
            .enumerate()
            .any(|(n, a)| leaves[..n].iter().any(|b| a.activity == b.activity && a.parts(b).0 != Kind::Xor))
    }

    pub fn variant_count(&self) -> u64 {
        match self {
            Term::Activity(_) => 1,
            Term::Group(Kind::Xor, children) => children.iter().map(Term::variant_count).sum(),
            Term::Group(_, children) => children.iter().map(Term::variant_count).product(),
        }
    }

    /// Every variant, in the order of their numbers.
    pub fn variants(&self) -> Vec<Term> {
        match self {
            Term::Activity(_) => vec![self.clone()],
            Term::Group(Kind::Xor, children) => children.iter().flat_map(Term::variants).collect(),
            Term::Group(kind, children) => {
                let mut combinations = vec![vec![]];
                for child in children {
                    let mut longer = vec![];
                    for chosen in &combinations {
                        for choice in child.variants() {
                            longer.push([&chosen[..], &[choice]].concat());
                        }
                    }
                    combinations = longer;
                }
                combinations.into_iter().map(|chosen| Term::Group(*kind, chosen)).collect()
            }
        }
    }

    /// One variant, without the others.
    pub fn variant(&self, number: u64) -> Term {
        match self {
            Term::Activity(_) => self.clone(),
            Term::Group(Kind::Xor, children) => {
                let mut rest = number;
                for child in children {
                    let count = child.variant_count();
                    if rest < count {
                        return child.variant(rest);
                    }
                    rest -= count;
                }
                panic!("no variant {number}")
            }
            Term::Group(kind, children) => {
                let mut rest = number;
                let mut chosen = vec![];
                for child in children.iter().rev() {
                    let count = child.variant_count();
                    chosen.insert(0, child.variant(rest % count));
                    rest /= count;
                }
                Term::Group(*kind, chosen)
            }
        }
    }

    /// Rules (3) and (5): an s directly in an s, or a p directly in a p, gives its children to its parent.
    pub fn dissolved(&self) -> Term {
        let Term::Group(kind, children) = self else {
            return self.clone();
        };
        let mut kept = vec![];
        for child in children {
            match child.dissolved() {
                Term::Group(inner, grandchildren) if inner == *kind && inner != Kind::Xor => kept.extend(grandchildren),
                other => kept.push(other),
            }
        }
        Term::Group(*kind, kept)
    }
}
