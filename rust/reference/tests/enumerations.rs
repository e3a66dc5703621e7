//! The enumerations agree with Definition 2 and with each other, of one unit and of several.

use reference::definition;
use reference::file::{Activity, Plan};
use reference::insertion::{active_schedules, some_active_schedule, Found};
use reference::orders;
use reference::project::{Project, Schedule};
use reference::random::Random;
use reference::sequences;
use reference::term::{Kind, Term};

/// A random term over the activities, with no x.
fn chosen_term(random: &mut Random, activities: &[usize]) -> Term {
    if activities.len() == 1 && !random.once_in(5) {
        return Term::Activity(activities[0]);
    }
    let kind = random.pick(&[Kind::Seq, Kind::Pll, Kind::Pll]);
    let parts = random.between(1, activities.len() as u64) as usize;
    let mut cuts: Vec<usize> = (1..activities.len()).collect();
    while cuts.len() > parts - 1 {
        cuts.remove(random.index(cuts.len()));
    }
    cuts.push(activities.len());
    let mut from = 0;
    let children = cuts.iter().map(|&to| {
        let child = chosen_term(random, &activities[from..to]);
        from = to;
        child
    });
    Term::Group(kind, children.collect())
}

fn project_of(random: &mut Random, capacities: Vec<u64>, activities: Vec<Activity>) -> Project {
    let mut numbers: Vec<usize> = (0..activities.len()).collect();
    for i in (1..numbers.len()).rev() {
        numbers.swap(i, random.index(i + 1));
    }
    let term = chosen_term(random, &numbers);
    Project::new(&Plan { edition: 2, capacities, activities, term: term.clone() }, &term)
}

/// One unit to a resource, each activity on one.
fn one_unit(random: &mut Random, most: u64, longest: u64) -> Project {
    let size = random.between(1, most);
    let resources = random.between(1, 4);
    let activity = |_| Activity::on(random.below(resources), resources, random.between(1, longest));
    let activities = (0..size).map(activity).collect();
    project_of(random, vec![1; resources as usize], activities)
}

/// Several units to a resource, each activity on any of them or on none.
fn units(random: &mut Random, most: u64, longest: u64) -> Project {
    let size = random.between(1, most);
    let capacities: Vec<u64> = (0..random.between(1, 3)).map(|_| random.pick(&[1, 1, 2, 2, 3, 4, 15])).collect();
    let none = random.between(2, 5);
    let activities = (0..size).map(|_| {
        let units = capacities.iter().map(|&b| if random.once_in(none) { 0 } else { random.between(1, b) }).collect();
        Activity { duration: random.between(1, longest), units }
    });
    let activities = activities.collect();
    project_of(random, capacities, activities)
}

fn project(random: &mut Random, most: u64, longest: u64) -> Project {
    if random.once_in(3) {
        one_unit(random, most, longest)
    } else {
        units(random, most, longest)
    }
}

fn sorted(schedules: impl IntoIterator<Item = Schedule>) -> Vec<Schedule> {
    let mut sorted: Vec<Schedule> = schedules.into_iter().collect();
    sorted.sort();
    sorted
}

fn inserted(project: &Project) -> Vec<Schedule> {
    match active_schedules(project, u64::MAX, &mut u64::MAX.clone()) {
        Found::All(found) => sorted(found),
        _ => unreachable!(),
    }
}

#[test]
fn every_start_tried() {
    let mut random = Random(1);
    let mut schedules = 0;
    for _ in 0..4000 {
        let project = project(&mut random, 5, 3);
        let by_definition = sorted(definition::active_schedules(&project));
        if project.is_one_unit() {
            assert_eq!(by_definition, sorted(orders::active_schedules(&project)));
        }
        assert_eq!(by_definition, sorted(sequences::active_schedules(&project)));
        assert_eq!(by_definition, inserted(&project));
        let shortest = by_definition.iter().map(|starts| project.makespan(starts)).min();
        assert_eq!(shortest, Some(definition::shortest(&project)));
        schedules += by_definition.len();
    }
    assert!(schedules > 10_000);
}

#[test]
fn a_later_horizon_finds_no_more() {
    let mut random = Random(2);
    for _ in 0..500 {
        let project = project(&mut random, 3, 3);
        let mut later = definition::feasible_schedules(&project, 3 * project.total_duration());
        later.retain(|starts| project.is_active(starts));
        assert_eq!(sorted(later), sorted(definition::active_schedules(&project)));
    }
}

/// Between the bounds and the sum of the durations, feasible, and each once.
fn assert_listed(project: &Project, found: &[Schedule], random: &mut Random) {
    assert!(found.windows(2).all(|pair| pair[0] != pair[1]));
    for starts in found {
        let makespan = project.makespan(starts);
        assert!(project.is_feasible(starts));
        assert!(makespan >= project.longest_chain().max(project.largest_load()));
        assert!(makespan <= project.total_duration());
    }
    let some = some_active_schedule(project, random);
    assert!(found.binary_search(&some).is_ok());
}

#[test]
fn orders_and_insertion() {
    let mut random = Random(3);
    let mut schedules = 0;
    for _ in 0..20_000 {
        let project = one_unit(&mut random, 9, 30);
        if orders::combinations(&project, 2000).is_none() {
            continue;
        }
        let found = inserted(&project);
        assert_eq!(found, sorted(orders::active_schedules(&project)));
        assert_listed(&project, &found, &mut random);
        schedules += found.len();
    }
    assert!(schedules > 100_000);
}

#[test]
fn sequences_and_insertion() {
    let mut random = Random(6);
    let mut schedules = 0;
    for _ in 0..1000 {
        let project = units(&mut random, 7, 30);
        let found = inserted(&project);
        assert_eq!(found, sorted(sequences::active_schedules(&project)));
        assert_listed(&project, &found, &mut random);
        schedules += found.len();
    }
    assert!(schedules > 20_000, "{schedules}");
}

/// The load is reached where no chain is as long, also where it is rounded up.
#[test]
fn loads() {
    let mut random = Random(7);
    let mut reached = [0, 0];
    for _ in 0..3000 {
        let project = units(&mut random, 5, 4);
        let shortest = inserted(&project).iter().map(|starts| project.makespan(starts)).min().unwrap();
        let load = project.largest_load();
        let work = |r: usize| (0..project.size()).map(|i| project.duration[i] * project.units[i][r]).sum::<u64>();
        let is_rounded = (0..project.capacities.len()).all(|r| work(r) / project.capacities[r] < load);
        if shortest == load && project.longest_chain() < load {
            reached[usize::from(is_rounded)] += 1;
        }
    }
    assert!(reached[0] > 50 && reached[1] > 50, "{reached:?}");
}

/// Units are within capacity on every tick if on every start.
#[test]
fn starts_are_enough() {
    let mut random = Random(8);
    let mut both = [0, 0];
    for _ in 0..20_000 {
        let project = units(&mut random, 4, 4);
        let starts: Schedule = (0..project.size()).map(|_| random.below(8)).collect();
        let size = project.size();
        let in_order = (0..size).all(|i| (0..size).all(|j| project.in_order(&starts, i, j)));
        let feasible = in_order && (0..16).all(|tick| project.within_capacity(&starts, size, tick));
        assert_eq!(feasible, project.is_feasible(&starts));
        both[usize::from(feasible)] += 1;
    }
    assert!(both[0] > 1000 && both[1] > 1000);
}

#[test]
fn settled_is_active() {
    let mut random = Random(4);
    let mut both = [0, 0];
    for _ in 0..300 {
        let project = project(&mut random, 4, 3);
        for starts in definition::feasible_schedules(&project, project.total_duration()) {
            let active = project.is_active(&starts);
            assert_eq!(active, project.is_settled(&starts));
            both[usize::from(active)] += 1;
        }
    }
    assert!(both[0] > 1000 && both[1] > 500);
}
