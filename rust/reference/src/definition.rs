//! Schedules by trying every start: for tiny projects.

use crate::project::{Project, Schedule};

/// Every feasible schedule with all starts below the horizon.
pub fn feasible_schedules(project: &Project, horizon: u64) -> Vec<Schedule> {
    let mut found = vec![];
    extend(project, horizon, &mut vec![], &mut found);
    found
}

fn extend(project: &Project, horizon: u64, starts: &mut Schedule, found: &mut Vec<Schedule>) {
    let next = starts.len();
    if next == project.size() {
        found.push(starts.clone());
        return;
    }
    for start in 0..horizon {
        starts.push(start);
        if may_stand(project, starts) {
            extend(project, horizon, starts, found);
        }
        starts.pop();
    }
}

/// May the last of some starts stand beside those before it, on every tick of it?
fn may_stand(project: &Project, starts: &[u64]) -> bool {
    let last = starts.len() - 1;
    let mut ticks = starts[last]..project.end(starts, last);
    (0..last).all(|i| project.in_order(starts, i, last) && project.in_order(starts, last, i))
        && ticks.all(|tick| project.within_capacity(starts, starts.len(), tick))
}

/// Every active schedule: each start of one is below the sum of the durations.
pub fn active_schedules(project: &Project) -> Vec<Schedule> {
    let mut found = feasible_schedules(project, project.total_duration());
    found.retain(|starts| project.is_active(starts));
    found
}

/// The shortest makespan of any feasible schedule.
pub fn shortest(project: &Project) -> u64 {
    let schedules = feasible_schedules(project, project.total_duration());
    schedules.iter().map(|starts| project.makespan(starts)).min().unwrap()
}
