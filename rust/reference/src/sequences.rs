//! Active schedules by placing the activities one after the other in every sequence that agrees with precedence, each
//! at its earliest fit among those before it, whatever the starts of these are. The sequence by rising start gives an
//! active schedule itself (`insertion` says why), so each is among these, more than once as a rule.

use crate::project::{Project, Schedule};
use std::collections::HashSet;

fn place(project: &Project, starts: &mut Schedule, placed: &mut [bool], found: &mut HashSet<Schedule>) {
    if placed.iter().all(|&placed| placed) {
        assert!(project.is_feasible(starts) && project.is_settled(starts));
        found.insert(starts.clone());
    }
    for j in 0..project.size() {
        if placed[j] || (0..project.size()).any(|i| project.before[i][j] && !placed[i]) {
            continue;
        }
        starts[j] = project.earliest_fit(starts, placed, j);
        placed[j] = true;
        place(project, starts, placed, found);
        placed[j] = false;
    }
}

pub fn active_schedules(project: &Project) -> HashSet<Schedule> {
    let size = project.size();
    let mut found = HashSet::new();
    place(project, &mut vec![0; size], &mut vec![false; size], &mut found);
    found
}
