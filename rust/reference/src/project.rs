//! The activities of one variant, and which schedules of them are feasible and active (document 000, Definition 2).

use crate::file::Plan;
use crate::term::{Kind, Term};
use std::cmp::Ordering;

/// A start for each activity of a project.
pub type Schedule = Vec<u64>;

pub struct Project {
    /// The activities' numbers in the plan, rising.
    pub numbers: Vec<usize>,
    pub duration: Vec<u64>,
    /// `units[i][r]`: how many units of resource r activity i holds.
    pub units: Vec<Vec<u64>>,
    /// The units of each resource.
    pub capacities: Vec<u64>,
    /// `before[i][j]`: i precedes j.
    pub before: Vec<Vec<bool>>,
}

impl Project {
    /// The project of a variant of the plan, which is the term chosen.
    pub fn new(plan: &Plan, chosen: &Term) -> Project {
        let mut leaves = chosen.leaves();
        leaves.sort_by_key(|leaf| leaf.activity);
        let numbers: Vec<usize> = leaves.iter().map(|leaf| leaf.activity).collect();
        let precedes = |i: usize, j: usize| i != j && leaves[i].parts(&leaves[j]) == (Kind::Seq, Ordering::Less);
        let size = numbers.len();
        Project {
            duration: numbers.iter().map(|&i| plan.activities[i].duration).collect(),
            units: numbers.iter().map(|&i| plan.activities[i].units.clone()).collect(),
            capacities: plan.capacities.clone(),
            before: (0..size).map(|i| (0..size).map(|j| precedes(i, j)).collect()).collect(),
            numbers,
        }
    }

    pub fn size(&self) -> usize {
        self.numbers.len()
    }

    pub fn total_duration(&self) -> u64 {
        self.duration.iter().sum()
    }

    pub fn end(&self, starts: &[u64], i: usize) -> u64 {
        starts[i] + self.duration[i]
    }

    fn runs(&self, starts: &[u64], i: usize, tick: u64) -> bool {
        starts[i] <= tick && tick < self.end(starts, i)
    }

    /// Do the first n activities, on the tick, hold no more units of each resource than it has?
    pub fn within_capacity(&self, starts: &[u64], n: usize, tick: u64) -> bool {
        let held = |r: usize| (0..n).filter(|&i| self.runs(starts, i, tick)).map(|i| self.units[i][r]).sum::<u64>();
        (0..self.capacities.len()).all(|r| held(r) <= self.capacities[r])
    }

    pub fn in_order(&self, starts: &[u64], i: usize, j: usize) -> bool {
        !self.before[i][j] || self.end(starts, i) <= starts[j]
    }

    /// Within capacity on every tick, if on those on which an activity starts: on no other are more units held than on
    /// the one before.
    pub fn is_feasible(&self, starts: &[u64]) -> bool {
        let all = || 0..self.size();
        all().all(|i| all().all(|j| self.in_order(starts, i, j)))
            && starts.iter().all(|&tick| self.within_capacity(starts, self.size(), tick))
    }

    /// Definition 2, word by word: no start can be made smaller, the others unchanged.
    pub fn is_active(&self, starts: &[u64]) -> bool {
        let can_move = |j: usize, t: u64| {
            let mut moved = starts.to_vec();
            moved[j] = t;
            self.is_feasible(&moved)
        };
        self.is_feasible(starts) && !(0..self.size()).any(|j| (0..starts[j]).any(|t| can_move(j, t)))
    }

    /// Do i and j use a common resource?
    pub fn share(&self, i: usize, j: usize) -> bool {
        self.units[i].iter().zip(&self.units[j]).any(|(a, b)| *a > 0 && *b > 0)
    }

    /// Is there room for j on the tick, beside those that are placed?
    pub fn has_room(&self, starts: &[u64], placed: &[bool], j: usize, tick: u64) -> bool {
        let runs = |&i: &usize| i != j && placed[i] && self.runs(starts, i, tick);
        let held = |r: usize| (0..self.size()).filter(runs).map(|i| self.units[i][r]).sum::<u64>();
        let fits = |r: usize| self.units[j][r] == 0 || held(r) + self.units[j][r] <= self.capacities[r];
        (0..self.capacities.len()).all(fits)
    }

    /// The earliest start of j among the activities that are placed, the ends of its predecessors being the floor. It
    /// is the floor or an end, since room comes with an end; and room goes with a start.
    pub fn earliest_fit(&self, starts: &[u64], placed: &[bool], j: usize) -> u64 {
        let others = || (0..self.size()).filter(|&i| placed[i] && i != j);
        let floor = others().filter(|&i| self.before[i][j]).map(|i| self.end(starts, i)).max().unwrap_or(0);
        let fits = |start: &u64| {
            let inside = |tick: &u64| *start < *tick && *tick < start + self.duration[j];
            let ticks = others().map(|i| starts[i]).filter(inside).chain([*start]);
            ticks.into_iter().all(|tick| self.has_room(starts, placed, j, tick))
        };
        let ends = others().map(|i| self.end(starts, i)).filter(|&end| end > floor);
        let mut ticks: Vec<u64> = ends.chain([floor]).collect();
        ticks.sort();
        ticks.into_iter().find(fits).unwrap()
    }

    /// As `is_active`, for feasible starts, by the only ticks where an activity can first fit.
    pub fn is_settled(&self, starts: &[u64]) -> bool {
        let placed = vec![true; self.size()];
        (0..self.size()).all(|j| self.earliest_fit(starts, &placed, j) >= starts[j])
    }

    pub fn makespan(&self, starts: &[u64]) -> u64 {
        let latest = (0..self.size()).map(|i| self.end(starts, i)).max().unwrap();
        latest - starts.iter().min().unwrap()
    }

    pub fn longest_chain(&self) -> u64 {
        let mut chain = self.duration.clone();
        for _ in 0..self.size() {
            for i in 0..self.size() {
                for j in (0..self.size()).filter(|&j| self.before[i][j]) {
                    chain[j] = chain[j].max(chain[i] + self.duration[j]);
                }
            }
        }
        chain.into_iter().max().unwrap()
    }

    /// The largest load of a resource: duration times units of its activities, divided by its capacity and rounded up.
    pub fn largest_load(&self) -> u64 {
        let work = |r: usize| (0..self.size()).map(|i| self.duration[i] * self.units[i][r]).sum::<u64>();
        (0..self.capacities.len()).map(|r| work(r).div_ceil(self.capacities[r])).max().unwrap()
    }

    /// Has each resource one unit, and each activity one unit of one resource?
    pub fn is_one_unit(&self) -> bool {
        self.capacities.iter().all(|&capacity| capacity == 1)
            && self.units.iter().all(|units| units.iter().sum::<u64>() == 1)
    }
}
