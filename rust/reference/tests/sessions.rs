//! Each session once, under the lowest variant that it is active for.

use calls::{Best, Planner, MARK};
use reference::definition::active_schedules;
use reference::file::{parse, Activity, Plan};
use reference::project::Project;
use reference::random::Random;
use reference::rows::{row_of, rows, Rows};
use reference::term::{Kind, Term};
use reference::{refusal, Reference};

/// A plan of so many devices, of activities (device and duration) and of nodes.
fn plan(resources: u64, activities: &[(u64, u64)], nodes: &str) -> Plan {
    let nodes: Vec<&str> = nodes.split(' ').collect();
    let mut text = format!("plan=1\nres={resources}\nacts={}\n", activities.len());
    activities.iter().for_each(|(resource, duration)| text += &format!("act={resource},{duration}\n"));
    text += &format!("nodes={}\n", nodes.len());
    nodes.iter().for_each(|node| text += &format!("node={node}\n"));
    parse(text.as_bytes()).unwrap()
}

/// The rows, which are within a cap exactly if they are no more than it, and how many active sessions each variant has.
fn listed(plan: &Plan) -> (Vec<Vec<u32>>, Vec<u64>) {
    let Rows::All(found, active) = rows(plan, u64::MAX, u64::MAX) else { unreachable!() };
    let count = found.len() as u64;
    assert!(matches!(rows(plan, count, u64::MAX), Rows::All(same, _) if same == found));
    assert!(matches!(rows(plan, count - 1, u64::MAX), Rows::OverCap));
    (found, active)
}

#[test]
fn activity_0_twice() {
    let x = plan(1, &[(0, 1)], "x,2 a,0 a,0");
    assert_eq!(x.term.variant_count(), 2);
    assert_eq!(listed(&x), (vec![vec![0, 0]], vec![1, 1]));
    let file = x.text();
    assert_eq!(Reference.list(&file, 1, &mut [0; 2]), Ok(1));
    assert_eq!(Reference.list(&file, 1, &mut [0; 1]), Err(refusal(8, 2)));
    let found = Best { variant: 0, makespan: 1, count: 1, shortest: 1 };
    assert_eq!(Reference.best(&file, 1, &mut [0; 24]), Ok(found));
    assert_eq!(Reference.best(&file, 0, &mut [0; 24]), Err(refusal(7, 0)));
}

/// Variants 0 and 1 put two activities on one device in either order, variant 2 has both orders.
#[test]
fn active_for_0_and_2() {
    let x = plan(1, &[(0, 1), (0, 1)], "x,3 s,2 a,0 a,1 s,2 a,1 a,0 p,2 a,0 a,1");
    assert_eq!(listed(&x), (vec![vec![0, 0, 1], vec![1, 1, 0]], vec![1, 1, 2]));
    let x = plan(1, &[(0, 1), (0, 1)], "x,3 p,2 a,0 a,1 s,2 a,1 a,0 s,2 a,0 a,1");
    assert_eq!(listed(&x), (vec![vec![0, 0, 1], vec![0, 1, 0]], vec![2, 1, 1]));
}

/// Variant 0 has two activities on two devices side by side: that the second waits for the first is feasible there, and
/// not active.
#[test]
fn feasible_is_not_enough() {
    let x = plan(2, &[(0, 1), (1, 1)], "x,3 p,2 a,0 a,1 s,2 a,0 a,1 p,2 a,1 a,0");
    assert_eq!(listed(&x), (vec![vec![0, 0, 0], vec![1, 0, 1]], vec![1, 1, 1]));
}

#[test]
fn other_activities_are_another_session() {
    let x = plan(2, &[(0, 1), (1, 1)], "x,4 a,0 p,2 a,0 a,1 a,1 a,0");
    assert_eq!(listed(&x), (vec![vec![0, 0, MARK], vec![1, 0, 0], vec![2, MARK, 0]], vec![1; 4]));
}

/// 63 variants, each with the same 24 sessions.
#[test]
fn more_variants_than_sessions() {
    let term = Term::Group(Kind::Pll, (0..4).map(Term::Activity).collect());
    let activities = vec![Activity::on(0, 1, 1); 4];
    let plan = Plan { edition: 1, capacities: vec![1], activities, term: Term::Group(Kind::Xor, vec![term; 63]) };
    let (rows, active) = listed(&plan);
    assert_eq!((rows.len(), active), (24, vec![24; 63]));
    assert!(rows.iter().all(|row| row[0] == 0));
}

fn shuffled(random: &mut Random, activities: &[usize]) -> Vec<usize> {
    let mut shuffled = activities.to_vec();
    for i in (1..shuffled.len()).rev() {
        shuffled.swap(i, random.index(i + 1));
    }
    shuffled
}

/// A random term over the activities. An s or p parts them between its children; each child of an x has all or most of
/// them.
fn term(random: &mut Random, activities: &[usize], depth: u64) -> Term {
    if activities.len() == 1 {
        return Term::Activity(activities[0]);
    }
    if depth > 0 && random.once_in(2) {
        let mut child = || {
            let most = activities.len() - usize::from(random.once_in(4));
            let activities = shuffled(random, activities);
            term(random, &activities[..most], depth - 1)
        };
        return Term::Group(Kind::Xor, (0..3).map(|_| child()).collect());
    }
    let (first, second) = activities.split_at(1 + random.index(activities.len() - 1));
    let kind = random.pick(&[Kind::Seq, Kind::Pll]);
    Term::Group(kind, vec![term(random, first, depth), term(random, second, depth)])
}

/// Every pair whose session is not among those of a lower variant with the same activities.
fn by_definition(plan: &Plan) -> Vec<Vec<u32>> {
    let projects: Vec<Project> = plan.term.variants().iter().map(|chosen| Project::new(plan, chosen)).collect();
    let mut rows = vec![];
    for (variant, project) in projects.iter().enumerate() {
        let has = |lower: &Project, starts: &[u64]| lower.numbers == project.numbers && lower.is_active(starts);
        let mut found = active_schedules(project);
        found.retain(|starts| !projects[..variant].iter().any(|lower| has(lower, starts)));
        found.sort();
        rows.extend(found.iter().map(|starts| row_of(plan, variant as u64, project, starts)));
    }
    rows
}

/// Four activities: on one resource each, or on any of them or none.
fn four_activities(random: &mut Random, edition: u64, capacities: &[u64]) -> Vec<Activity> {
    let resources = capacities.len() as u64;
    let mut activity = || match edition {
        1 => Activity::on(random.below(resources), resources, random.between(1, 3)),
        _ => {
            let units = capacities.iter().map(|&b| random.below(b + 1)).collect();
            Activity { duration: random.between(1, 3), units }
        }
    };
    (0..4).map(|_| activity()).collect()
}

#[test]
fn random_plans() {
    let mut random = Random(5);
    let mut shared = 0;
    for _ in 0..2000 {
        let edition = random.between(1, 2);
        let most = if edition == 1 { 1 } else { 3 };
        let capacities: Vec<u64> = (0..random.between(1, 3)).map(|_| random.between(1, most)).collect();
        let activities = four_activities(&mut random, edition, &capacities);
        let term = term(&mut random, &[0, 1, 2, 3], 2);
        let plan = Plan { edition, capacities, activities, term };
        let (rows, active) = listed(&plan);
        assert_eq!(rows, by_definition(&plan));
        shared += u64::from(active.iter().sum::<u64>() > rows.len() as u64);
    }
    assert!(shared > 500, "{shared}");
}

/// A plan of one unit has the same rows in either edition.
#[test]
fn spelled_in_edition_2() {
    let mut random = Random(9);
    let mut seen = 0;
    for _ in 0..1000 {
        let capacities = vec![1; random.between(1, 3) as usize];
        let activities = four_activities(&mut random, 1, &capacities);
        let plan = Plan { edition: 1, capacities, activities, term: term(&mut random, &[0, 1, 2, 3], 2) };
        // some have too many nodes
        if let Ok(other) = parse(&Plan { edition: 2, ..plan.clone() }.text()) {
            assert_eq!(other.edition, 2);
            assert_eq!(listed(&plan), listed(&other));
            seen += 1;
        }
    }
    assert!(seen > 400, "{seen}");
}

/// A plan of edition 2: capacities, activities (duration and then units) and nodes.
fn plan_2(capacities: &[u64], activities: &[&str], nodes: &str) -> Plan {
    let nodes: Vec<&str> = nodes.split(' ').collect();
    let mut text = format!("plan=2\nres={}\n", capacities.len());
    capacities.iter().for_each(|capacity| text += &format!("cap={capacity}\n"));
    text += &format!("acts={}\n", activities.len());
    activities.iter().for_each(|activity| text += &format!("act={activity}\n"));
    text += &format!("nodes={}\n", nodes.len());
    nodes.iter().for_each(|node| text += &format!("node={node}\n"));
    parse(text.as_bytes()).unwrap()
}

/// Worked by hand. Two arms: of three activities of one arm each one waits for the first end.
#[test]
fn two_arms_side_by_side() {
    let x = plan_2(&[2], &["2,1", "3,1", "4,1"], "p,3 a,0 a,1 a,2");
    assert_eq!(listed(&x).0, [[0, 0, 0, 2], [0, 0, 2, 0], [0, 3, 0, 0]]);
    let found = Best { variant: 0, makespan: 5, count: 3, shortest: 2 };
    assert_eq!(Reference.best(&x.text(), 3, &mut [0; 24]), Ok(found));
}

/// Both arms at once: before the others, which go side by side, or after both, or between them.
#[test]
fn both_arms() {
    let x = plan_2(&[2], &["3,2", "2,1", "4,1"], "p,3 a,0 a,1 a,2");
    assert_eq!(listed(&x).0, [[0, 0, 3, 3], [0, 2, 0, 5], [0, 4, 0, 0]]);
}

/// Arm and camera: what holds neither waits for nothing, what holds both for each.
#[test]
fn arm_and_camera() {
    let x = plan_2(&[1, 1], &["2,1,1", "3,0,1", "1,1,0", "5,0,0"], "p,4 a,0 a,1 a,2 a,3");
    assert_eq!(listed(&x).0, [[0, 0, 2, 2, 0], [0, 1, 3, 0, 0], [0, 3, 0, 0, 0]]);
}

/// Units left decide, not how many activities run: 2 and 2 of 3 go one after the other, 1 beside either.
#[test]
fn units_left() {
    let x = plan_2(&[3], &["2,2", "2,2", "1,1"], "p,3 a,0 a,1 a,2");
    assert_eq!(listed(&x).0, [[0, 0, 2, 0], [0, 2, 0, 0]]);
}
