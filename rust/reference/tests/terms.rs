//! Variants in their order, terms read from nodes, activities that stand twice, and written variants.

use reference::file::{parse, whole_term, Activity, Plan};
use reference::random::Random;
use reference::term::{Kind, Term};

/// A random term with any kind of group and any activities.
fn term(random: &mut Random, depth: u64, activities: u64) -> Term {
    if depth == 0 || random.once_in(4) {
        return Term::Activity(random.below(activities) as usize);
    }
    let kind = random.pick(&[Kind::Seq, Kind::Pll, Kind::Xor]);
    let children = random.between(2, 3);
    Term::Group(kind, (0..children).map(|_| term(random, depth - 1, activities)).collect())
}

fn repeats(chosen: &Term) -> bool {
    let leaves = chosen.leaves();
    (0..leaves.len()).any(|i| (0..i).any(|j| leaves[i].activity == leaves[j].activity))
}

#[test]
fn variants_by_number() {
    let mut random = Random(1);
    for _ in 0..5000 {
        let term = term(&mut random, 3, 24);
        let variants = term.variants();
        assert_eq!(variants.len() as u64, term.variant_count());
        for (number, variant) in variants.iter().enumerate() {
            assert_eq!(*variant, term.variant(number as u64));
        }
    }
}

#[test]
fn an_x_first_an_s_slowest() {
    let a = |i| Term::Activity(i);
    let x = |i, j| Term::Group(Kind::Xor, vec![a(i), a(j)]);
    let s = |i, j| Term::Group(Kind::Seq, vec![a(i), a(j)]);
    let term = Term::Group(Kind::Seq, vec![x(0, 1), x(2, 3)]);
    assert_eq!(term.variants(), [s(0, 2), s(0, 3), s(1, 2), s(1, 3)]);
}

#[test]
fn twice_where_two_nodes_part() {
    let mut random = Random(2);
    let mut seen = [0, 0];
    for _ in 0..5000 {
        let term = term(&mut random, 3, 12);
        let twice = term.variants().iter().any(repeats);
        assert_eq!(twice, term.has_activity_twice());
        seen[usize::from(twice)] += 1;
    }
    assert!(seen[0] > 500 && seen[1] > 500);
}

#[test]
fn nodes_read_back() {
    let mut random = Random(3);
    for _ in 0..5000 {
        let term = term(&mut random, 4, 24);
        let mut nodes: Vec<(char, u64)> = term.nodes().iter().map(|&(c, k)| (c, k as u64)).collect();
        assert_eq!(whole_term(&nodes), Some(term));
        nodes.push(('a', 0));
        assert_eq!(whole_term(&nodes), None);
        nodes.truncate(nodes.len() - 2);
        assert_eq!(whole_term(&nodes), None);
    }
}

fn written_variants_read_back(edition: u64, capacities: Vec<u64>, activity: Activity) {
    let mut random = Random(4);
    let mut seen = 0;
    for _ in 0..5000 {
        let (capacities, activities) = (capacities.clone(), vec![activity.clone(); 24]);
        let drafted = Plan { edition, capacities, activities, term: term(&mut random, 3, 24) };
        let Ok(plan) = parse(&drafted.text()) else {
            continue;
        };
        assert_eq!(plan, drafted);
        for number in 0..plan.term.variant_count().min(20) {
            let written = plan.written(number).unwrap();
            let again = parse(&written).unwrap();
            assert_eq!((again.edition, &again.capacities), (edition, &plan.capacities));
            assert_eq!(again.activities, plan.activities);
            assert_eq!(again.term.variant_count(), 1);
            assert_eq!(again.written(0).unwrap(), written);
            assert!(!again.term.nodes().windows(2).any(|pair| pair[0].0 == pair[1].0 && pair[0].0 != 'a'));
            seen += 1;
        }
    }
    assert!(seen > 5000);
}

#[test]
fn written_variants_of_edition_1() {
    written_variants_read_back(1, vec![1; 3], Activity::on(2, 3, 20_000));
}

#[test]
fn written_variants_of_edition_2() {
    written_variants_read_back(2, vec![1, 15, 2], Activity { duration: 20_000, units: vec![0, 15, 1] });
}
