//! The active sessions of a plan, each once, as rows: the lowest variant that it is active for and then a start for
//! each activity. They stand by variant, then by the start of activity 0, then of activity 1 and so on through the
//! present ones.

use crate::file::Plan;
use crate::insertion::{active_schedules, some_active_schedule, Found};
use crate::project::Project;
use crate::random::Random;
use calls::MARK;
use std::collections::HashSet;

pub enum Rows {
    /// The rows, and how many active sessions each variant has, with those of lower variants.
    All(Vec<Vec<u32>>, Vec<u64>),
    OverCap,
    /// The steps allowed were not enough to tell.
    Unsettled,
}

pub fn row_of(plan: &Plan, variant: u64, project: &Project, starts: &[u64]) -> Vec<u32> {
    let mut row = vec![MARK; plan.activities.len() + 1];
    row[0] = variant as u32;
    for (&number, &start) in project.numbers.iter().zip(starts) {
        row[number + 1] = start.try_into().unwrap();
    }
    row
}

/// Every variant is searched, and of its rows those are kept whose starts no lower variant has. A variant that has more
/// sessions than the cap by itself shows that there are more.
pub fn rows(plan: &Plan, cap: u64, steps: u64) -> Rows {
    let mut steps = steps;
    let (mut rows, mut active) = (vec![], vec![]);
    let mut seen = HashSet::new();
    for variant in 0..plan.term.variant_count() {
        let project = Project::new(plan, &plan.term.variant(variant));
        let mut found = match active_schedules(&project, cap, &mut steps) {
            Found::All(found) => found,
            Found::More => return Rows::OverCap,
            Found::OutOfSteps if exceeds(plan, cap) => return Rows::OverCap,
            Found::OutOfSteps => return Rows::Unsettled,
        };
        found.sort();
        active.push(found.len() as u64);
        let of_variant = found.iter().map(|starts| row_of(plan, variant, &project, starts));
        rows.extend(of_variant.filter(|row| seen.insert(row[1..].to_vec())));
        if rows.len() as u64 > cap {
            return Rows::OverCap;
        }
    }
    Rows::All(rows, active)
}

/// Do random active sessions of some variants show that there are more than the cap?
fn exceeds(plan: &Plan, cap: u64) -> bool {
    let variants = plan.term.variant_count();
    let mut random = Random(cap);
    let project = |number: u64| Project::new(plan, &plan.term.variant(number));
    let projects: Vec<Project> = (0..variants.min(64)).map(|_| project(random.below(variants))).collect();
    let mut seen = HashSet::new();
    for _ in 0..2 * cap.min(10_000) + 100 {
        let project = &projects[random.index(projects.len())];
        let starts = some_active_schedule(project, &mut random);
        seen.insert(row_of(plan, 0, project, &starts));
        if seen.len() as u64 > cap {
            return true;
        }
    }
    false
}
