//! Active schedules by adding activities one at a time, each at its earliest fit among those that stand already.
//!
//! Every schedule made so is active: what is added later only takes room away. An active schedule is made by adding its
//! activities by rising start (and number, where starts are equal): if one fitted earlier among those before it, it
//! would fit there in the whole schedule too, since before its start nothing else runs, and from its start on it has
//! room beside the others as it stands. So taking only those steps in which start and number rise gives each active
//! schedule exactly once.

use crate::project::{Project, Schedule};
use crate::random::Random;

pub enum Found {
    All(Vec<Schedule>),
    /// There are more than asked for.
    More,
    OutOfSteps,
}

struct Search<'a> {
    project: &'a Project,
    most: u64,
    steps: &'a mut u64,
    starts: Schedule,
    placed: Vec<bool>,
    found: Vec<Schedule>,
}

fn may_start(project: &Project, placed: &[bool], j: usize) -> bool {
    !placed[j] && (0..project.size()).all(|i| placed[i] || !project.before[i][j])
}

impl Search<'_> {
    /// False where the search is to stop.
    fn run(&mut self, left: usize, last: Option<(u64, usize)>) -> bool {
        if *self.steps == 0 {
            return false;
        }
        *self.steps -= 1;
        let project = self.project;
        if left == 0 {
            self.found.push(self.starts.clone());
            return self.found.len() as u64 <= self.most;
        }
        let mut next = vec![];
        for j in (0..project.size()).filter(|&j| may_start(project, &self.placed, j)) {
            let start = project.earliest_fit(&self.starts, &self.placed, j);
            match last {
                Some(last) if (start, j) < last => {
                    if !self.can_be_held_up(j, start, last.0) {
                        return true;
                    }
                }
                _ => next.push((start, j)),
            }
        }
        for (start, j) in next {
            (self.starts[j], self.placed[j]) = (start, true);
            let go_on = self.run(left - 1, Some((start, j)));
            self.placed[j] = false;
            if !go_on {
                return false;
            }
        }
        true
    }

    /// j fits too early. Can another activity on a resource of it, started at `from` or later, take that place?
    fn can_be_held_up(&self, j: usize, start: u64, from: u64) -> bool {
        let project = self.project;
        let rival = |i: usize| i != j && !self.placed[i] && project.share(i, j);
        start + project.duration[j] > from && (0..project.size()).any(|i| rival(i) && !project.before[j][i])
    }
}

/// All active schedules if they are no more than `most`; `steps` falls by the steps taken.
pub fn active_schedules(project: &Project, most: u64, steps: &mut u64) -> Found {
    let size = project.size();
    let (starts, placed) = (vec![0; size], vec![false; size]);
    let mut search = Search { project, most, steps, starts, placed, found: vec![] };
    let all = search.run(size, None);
    match (all, search.found) {
        (true, found) => Found::All(found),
        (false, found) if found.len() as u64 > most => Found::More,
        _ => Found::OutOfSteps,
    }
}

/// One active schedule, its activities added in a random order.
pub fn some_active_schedule(project: &Project, random: &mut Random) -> Schedule {
    let size = project.size();
    let (mut starts, mut placed) = (vec![0; size], vec![false; size]);
    for _ in 0..size {
        let next: Vec<usize> = (0..size).filter(|&j| may_start(project, &placed, j)).collect();
        let j = next[random.index(next.len())];
        starts[j] = project.earliest_fit(&starts, &placed, j);
        placed[j] = true;
    }
    starts
}
