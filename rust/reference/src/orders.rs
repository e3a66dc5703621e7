//! Active schedules of a project of one unit (`Project::is_one_unit`) by trying every order on every resource. A
//! schedule in which no activity can slide is the earliest one of its orders, so the active schedules are those of
//! these earliest ones that pass Definition 2's test.

use crate::project::{Project, Schedule};
use std::collections::HashSet;

/// The orders of some activities that agree with precedence.
fn orders(project: &Project, activities: &[usize]) -> Vec<Vec<usize>> {
    if activities.is_empty() {
        return vec![vec![]];
    }
    let mut found = vec![];
    for &first in activities {
        if activities.iter().any(|&i| project.before[i][first]) {
            continue;
        }
        let rest: Vec<usize> = activities.iter().copied().filter(|&i| i != first).collect();
        for mut order in orders(project, &rest) {
            order.insert(0, first);
            found.push(order);
        }
    }
    found
}

fn by_resource(project: &Project) -> Vec<Vec<usize>> {
    assert!(project.is_one_unit());
    let on = |r: usize| (0..project.size()).filter(|&i| project.units[i][r] == 1).collect::<Vec<_>>();
    (0..project.capacities.len()).map(on).filter(|activities| !activities.is_empty()).collect()
}

/// The number of orders, or `most` if there are as many or more.
fn count_orders(project: &Project, activities: &[usize], most: u64) -> u64 {
    if activities.is_empty() {
        return 1.min(most);
    }
    let mut count = 0;
    for &first in activities {
        if count < most && !activities.iter().any(|&i| project.before[i][first]) {
            let rest: Vec<usize> = activities.iter().copied().filter(|&i| i != first).collect();
            count += count_orders(project, &rest, most - count);
        }
    }
    count
}

/// The number of combinations of orders, unless there are more than `most`.
pub fn combinations(project: &Project, most: u64) -> Option<u64> {
    let counts = by_resource(project).into_iter().map(|activities| count_orders(project, &activities, most + 1));
    Some(counts.fold(1, u64::saturating_mul)).filter(|&count| count <= most)
}

/// The earliest schedule in which each activity of a chain starts after the one before it; none if they go in a circle.
fn earliest(project: &Project, chains: &[&Vec<usize>]) -> Option<Schedule> {
    let size = project.size();
    let mut starts = vec![0; size];
    for _ in 0..=size {
        let mut moved = false;
        let mut order = |i: usize, j: usize| {
            let end = starts[i] + project.duration[i];
            if starts[j] < end {
                starts[j] = end;
                moved = true;
            }
        };
        for j in 0..size {
            (0..size).filter(|&i| project.before[i][j]).for_each(|i| order(i, j));
        }
        for chain in chains {
            chain.windows(2).for_each(|pair| order(pair[0], pair[1]));
        }
        if !moved {
            return Some(starts);
        }
    }
    None
}

fn combine<'a>(
    project: &Project,
    choices: &'a [Vec<Vec<usize>>],
    chosen: &mut Vec<&'a Vec<usize>>,
    visit: &mut dyn FnMut(Schedule),
) {
    let Some((first, rest)) = choices.split_first() else {
        if let Some(starts) = earliest(project, chosen) {
            visit(starts);
        }
        return;
    };
    for order in first {
        chosen.push(order);
        combine(project, rest, chosen, visit);
        chosen.pop();
    }
}

/// The earliest schedule of every combination of orders that has one.
pub fn each_earliest(project: &Project, visit: &mut dyn FnMut(Schedule)) {
    let choices: Vec<_> = by_resource(project).iter().map(|activities| orders(project, activities)).collect();
    combine(project, &choices, &mut vec![], visit);
}

pub fn active_schedules(project: &Project) -> HashSet<Schedule> {
    let mut found = HashSet::new();
    each_earliest(project, &mut |starts| {
        if project.is_settled(&starts) {
            found.insert(starts);
        }
    });
    found
}
