//! An independent, plain implementation of the five calls, from the definitions alone.
//!
//! The active schedules are found in four ways: `definition` tries every start, `orders` every order on every resource
//! of one unit, `sequences` every sequence of the activities, and `insertion` adds activities by rising start. The
//! tests hold them against each other.

pub mod definition;
pub mod file;
pub mod insertion;
pub mod orders;
pub mod project;
pub mod random;
pub mod rows;
pub mod sequences;
pub mod term;

use calls::{Answer, Best, Planner, Refusal, Size, Timetable, MARK, PLACES};
use file::Plan;
use project::Project;
use rows::{rows, Rows};
use term::Term;

pub fn refusal(number: u64, figure: u64) -> Refusal {
    Refusal { number, figure }
}

impl Plan {
    /// The term of variant `number`; refusal 9 if there is none.
    pub fn variant(&self, number: u64) -> Answer<Term> {
        if number < self.term.variant_count() {
            Ok(self.term.variant(number))
        } else {
            Err(refusal(9, 0))
        }
    }

    pub fn written(&self, number: u64) -> Answer<Vec<u8>> {
        Ok(self.text_of(&self.variant(number)?.dissolved()))
    }
}

/// Does the timetable have the mark exactly at the absent activities, and is it feasible?
pub fn is_session(plan: &Plan, chosen: &Term, starts: &Timetable) -> bool {
    let project = Project::new(plan, chosen);
    let marked = (0..starts.len()).all(|i| (starts[i] == MARK) != project.numbers.contains(&i));
    let starts: Vec<u64> = project.numbers.iter().map(|&i| u64::from(starts[i])).collect();
    marked && project.is_feasible(&starts)
}

/// The makespan of a row: a variant and then a start for each activity.
pub fn makespan_of(plan: &Plan, row: &[u32]) -> u64 {
    let present = || (0..plan.activities.len()).filter(|&i| row[i + 1] != MARK);
    let start = |i: usize| u64::from(row[i + 1]);
    let latest = present().map(|i| start(i) + plan.activities[i].duration).max().unwrap();
    latest - present().map(start).min().unwrap()
}

/// The first shortest of some rows, as BEST answers it.
pub fn first_shortest(plan: &Plan, rows: &[Vec<u32>]) -> (Best, Timetable) {
    let makespan = rows.iter().map(|row| makespan_of(plan, row)).min().unwrap();
    let shortest: Vec<_> = rows.iter().filter(|row| makespan_of(plan, row) == makespan).collect();
    let row = shortest[0];
    let mut starts = [MARK; PLACES];
    starts[..row.len() - 1].copy_from_slice(&row[1..]);
    let (variant, count, shortest) = (u64::from(row[0]), rows.len() as u64, shortest.len() as u64);
    (Best { variant, makespan, count, shortest }, starts)
}

/// The reference as a planner. It may take long where the sessions are many.
pub struct Reference;

impl Reference {
    /// The plan, and its rows if the cap allows them.
    pub fn rows(&self, file: &[u8], cap: u32) -> Answer<(Plan, Vec<Vec<u32>>)> {
        let plan = file::parse(file)?;
        let mut steps = 4000;
        loop {
            match rows(&plan, u64::from(cap), steps) {
                Rows::All(rows, _) => return Ok((plan, rows)),
                Rows::OverCap => return Err(refusal(7, 0)),
                Rows::Unsettled => steps *= 16,
            }
        }
    }
}

impl Planner for Reference {
    fn read(&self, file: &[u8]) -> Answer<Size> {
        let plan = file::parse(file)?;
        Ok(Size {
            activities: plan.activities.len() as u64,
            nodes: plan.term.nodes().len() as u64,
            variants: plan.term.variant_count(),
        })
    }

    fn write(&self, file: &[u8], variant: u64, area: &mut [u8]) -> Answer<u64> {
        let text = file::parse(file)?.written(variant)?;
        if area.len() < text.len() {
            return Err(refusal(8, text.len() as u64));
        }
        area[..text.len()].copy_from_slice(&text);
        Ok(text.len() as u64)
    }

    fn check(&self, file: &[u8], variant: u64, starts: &Timetable) -> Answer<bool> {
        let plan = file::parse(file)?;
        let chosen = plan.variant(variant)?;
        Ok(is_session(&plan, &chosen, starts))
    }

    fn list(&self, file: &[u8], cap: u32, area: &mut [u32]) -> Answer<u64> {
        let rows = self.rows(file, cap)?.1;
        let cells = rows.concat();
        if area.len() < cells.len() {
            return Err(refusal(8, cells.len() as u64));
        }
        area[..cells.len()].copy_from_slice(&cells);
        Ok(rows.len() as u64)
    }

    fn best(&self, file: &[u8], cap: u32, starts: &mut Timetable) -> Answer<Best> {
        let (plan, rows) = self.rows(file, cap)?;
        let (best, timetable) = first_shortest(&plan, &rows);
        *starts = timetable;
        Ok(best)
    }
}
