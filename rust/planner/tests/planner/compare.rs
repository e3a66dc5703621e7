//! One plan file: every call of a planner against the reference.

use calls::{Answer, Best, Planner, Refusal, Timetable, MARK, PLACES};
use reference::file::{parse, Activity, Plan};
use reference::insertion::some_active_schedule;
use reference::project::{Project, Schedule};
use reference::random::Random;
use reference::rows::{row_of, rows, Rows};
use reference::{first_shortest, is_session, refusal};
use std::fmt::Debug;

/// What was seen of a plan.
pub struct Seen {
    /// The number of its refusal, or 0.
    pub refused: u64,
    pub edition: u64,
    pub variants: u64,
    pub sessions: Sessions,
}

pub enum Sessions {
    Listed(Listed),
    OverCap,
    /// The reference could not settle the count.
    Open,
}

pub struct Listed {
    pub sessions: u64,
    /// Are several of them shortest, but not all?
    pub tied: bool,
    /// The pairs of a variant and an active session of it.
    pub pairs: u64,
    /// Does some variant have sessions of lower variants and sessions of its own?
    pub mixed: bool,
    /// Is some start past 65535?
    pub late: bool,
    /// Do three activities or more run at once, that share a resource?
    pub three: bool,
}

impl Listed {
    /// Of the rows, and how many active sessions each variant has.
    fn new(plan: &Plan, rows: &[Vec<u32>], active: &[u64]) -> Listed {
        let mut own = vec![0; active.len()];
        rows.iter().for_each(|row| own[row[0] as usize] += 1);
        let Best { count, shortest, .. } = first_shortest(plan, rows).0;
        Listed {
            sessions: count,
            tied: 1 < shortest && shortest < count,
            pairs: active.iter().sum(),
            mixed: own.iter().zip(active).any(|(own, all)| 0 < *own && own < all),
            late: rows.concat().iter().any(|&cell| 65535 < cell && cell < MARK),
            three: rows.iter().any(|row| runs_three(plan, row)),
        }
    }
}

/// Do three activities hold one resource on a tick?
fn runs_three(plan: &Plan, row: &[u32]) -> bool {
    let holds = |i: usize, r: usize, tick: u32| {
        let Activity { duration, units } = &plan.activities[i];
        units[r] > 0 && row[i + 1] <= tick && u64::from(tick) < u64::from(row[i + 1]) + duration
    };
    let present = || (0..plan.activities.len()).filter(|&i| row[i + 1] != MARK);
    let together = |r: usize, tick: u32| present().filter(|&i| holds(i, r, tick)).count();
    (0..plan.capacities.len()).any(|r| present().any(|i| together(r, row[i + 1]) > 2))
}

type Difference = Result<(), String>;

fn same<T: PartialEq + Debug>(call: &str, expected: T, got: T) -> Difference {
    if expected == got {
        Ok(())
    } else {
        Err(format!("{call}: expected {expected:?}, got {got:?}"))
    }
}

/// An area between guards, filled with anything.
struct Area<T> {
    cells: Vec<T>,
    before: Vec<T>,
}

const GUARD: usize = 16;

impl<T: Copy + PartialEq> Area<T> {
    fn new(random: &mut Random, length: usize, make: fn(u64) -> T) -> Self {
        let cells: Vec<T> = (0..length + 2 * GUARD).map(|_| make(random.number())).collect();
        Area { before: cells.clone(), cells }
    }

    fn lent(&mut self) -> &mut [T] {
        let end = self.cells.len() - GUARD;
        &mut self.cells[GUARD..end]
    }

    /// Nothing but the first `written` cells has changed.
    fn untouched(&self, call: &str, written: usize) -> Difference {
        let kept = |cells: &[T]| [&cells[..GUARD], &cells[GUARD + written..]].concat();
        if kept(&self.cells) == kept(&self.before) {
            Ok(())
        } else {
            Err(format!("{call}: cells past those named have changed"))
        }
    }
}

/// Lengths of an area that wants `needed` cells: none, one short, exact, longer.
fn lengths(random: &mut Random, needed: usize) -> [usize; 4] {
    [0, needed - 1, needed, needed + random.between(1, 40) as usize]
}

pub fn compare(planner: &impl Planner, file: &[u8], random: &mut Random) -> Result<Seen, String> {
    match parse(file) {
        Err(refused) => {
            every_call_refuses(planner, file, refused, random)?;
            Ok(Seen { refused: refused.number, edition: 0, variants: 0, sessions: Sessions::OverCap })
        }
        Ok(plan) => {
            let size = planner.read(file).map(|size| [size.activities, size.nodes, size.variants]);
            let (nodes, variants) = (plan.term.nodes().len() as u64, plan.term.variant_count());
            same("read", Ok([plan.activities.len() as u64, nodes, variants]), size)?;
            compare_write(planner, file, &plan, random)?;
            compare_check(planner, file, &plan, random)?;
            let sessions = compare_sessions(planner, file, &plan, random)?;
            Ok(Seen { refused: 0, edition: plan.edition, variants, sessions })
        }
    }
}

fn every_call_refuses(planner: &impl Planner, file: &[u8], refused: Refusal, random: &mut Random) -> Difference {
    let (variant, cap) = (random.below(3), random.number() as u32);
    same("read", Err(refused), planner.read(file))?;
    let length = random.pick(&[0, 5, 2300]);
    let mut area = Area::new(random, length, |n| n as u8);
    same("write", Err(refused), planner.write(file, variant, area.lent()))?;
    area.untouched("write", 0)?;
    same("check", Err(refused), planner.check(file, variant, &any_timetable(random)))?;
    refuses_cap(planner, file, refused, cap, random)
}

/// LIST and BEST refuse.
fn refuses_cap(planner: &impl Planner, file: &[u8], refused: Refusal, cap: u32, random: &mut Random) -> Difference {
    let length = random.pick(&[0, 5, 300]);
    let mut area = Area::new(random, length, |n| n as u32);
    same("list", Err(refused), planner.list(file, cap, area.lent()))?;
    area.untouched("list", 0)?;
    let mut starts = Area::new(random, PLACES, |n| n as u32);
    same("best", Err(refused), best(planner, file, cap, &mut starts))?;
    starts.untouched("best", 0)
}

fn best(planner: &impl Planner, file: &[u8], cap: u32, starts: &mut Area<u32>) -> Answer<Best> {
    planner.best(file, cap, starts.lent().try_into().unwrap())
}

fn some_variants(random: &mut Random, plan: &Plan) -> [u64; 3] {
    let count = plan.term.variant_count();
    [0, count - 1, random.below(count)]
}

fn compare_write(planner: &impl Planner, file: &[u8], plan: &Plan, random: &mut Random) -> Difference {
    for variant in some_variants(random, plan) {
        let text = plan.written(variant).unwrap();
        for length in lengths(random, text.len()) {
            let mut area = Area::new(random, length, |n| n as u8);
            let got = planner.write(file, variant, area.lent());
            if length < text.len() {
                same("write", Err(refusal(8, text.len() as u64)), got)?;
                area.untouched("write", 0)?;
            } else {
                same("write", Ok(text.len() as u64), got)?;
                same("write: bytes", &text[..], &area.lent()[..text.len()])?;
                area.untouched("write", text.len())?;
            }
        }
        // read back, it has one variant, which is written the same
        same("read of the written", Ok(1), planner.read(&text).map(|size| size.variants))?;
        let mut again = vec![0; text.len()];
        same("write of the written", Ok(text.len() as u64), planner.write(&text, 0, &mut again))?;
        same("write of the written: bytes", &text, &again)?;
    }
    let count = plan.term.variant_count();
    for variant in [count, count + random.below(10), u64::MAX, 1 << 32] {
        let length = random.pick(&[0, 2300]);
        let mut area = Area::new(random, length, |n| n as u8);
        same("write", Err(refusal(9, 0)), planner.write(file, variant, area.lent()))?;
        area.untouched("write", 0)?;
        same("check", Err(refusal(9, 0)), planner.check(file, variant, &any_timetable(random)))?;
    }
    Ok(())
}

fn any_timetable(random: &mut Random) -> Timetable {
    let most = random.pick(&[1, 4, 100, 1 << 16, 1 << 32]);
    std::array::from_fn(|_| if random.once_in(2) { MARK } else { random.below(most) as u32 })
}

/// Some sessions begin later: anywhere, or so late that the last start is next to the mark or at it, or so late
/// that the starts after the first go on from 0.
fn delay(random: &mut Random, starts: &mut Schedule) {
    let (mark, latest) = (u64::from(MARK), *starts.iter().max().unwrap());
    let shift = match random.below(6) {
        0 => random.below(mark - latest),
        1 => mark - latest - random.below(6),
        2 => mark - random.between(1, 6),
        _ => 0,
    };
    starts.iter_mut().for_each(|start| *start = (*start + shift) % (1 << 32));
}

/// A timetable that is, or nearly is, a feasible schedule of the variant.
fn likely_timetable(random: &mut Random, plan: &Plan, variant: u64, project: &Project) -> Timetable {
    let mut starts = some_active_schedule(project, random);
    match random.below(6) {
        0 => {
            let at = random.index(starts.len());
            starts[at] += random.between(1, 5);
        }
        1 => {
            let at = random.index(starts.len());
            starts[at] = starts[at].saturating_sub(random.between(1, 5));
        }
        2 => {
            let horizon = project.total_duration();
            starts.iter_mut().for_each(|start| *start = random.below(horizon));
        }
        _ => {}
    }
    delay(random, &mut starts);
    let mut timetable = [MARK; PLACES];
    let row = row_of(plan, variant, project, &starts);
    timetable[..row.len() - 1].copy_from_slice(&row[1..]);
    match random.below(10) {
        0 => timetable[random.below(24) as usize] = MARK,
        1 => timetable[random.below(24) as usize] = random.pick(&[0, 100, 65534, 65535, 4294967294]),
        2 => timetable[23] = 0,
        _ => {}
    }
    timetable
}

fn compare_check(planner: &impl Planner, file: &[u8], plan: &Plan, random: &mut Random) -> Difference {
    for variant in some_variants(random, plan) {
        let chosen = plan.variant(variant).unwrap();
        let project = Project::new(plan, &chosen);
        let mut timetables = vec![any_timetable(random), [MARK; PLACES], [0; PLACES]];
        timetables.extend((0..4).map(|_| likely_timetable(random, plan, variant, &project)));
        for starts in timetables {
            let expected = is_session(plan, &chosen, &starts);
            let call = format!("check of {starts:?} in {variant}");
            same(&call, Ok(expected), planner.check(file, variant, &starts))?;
        }
    }
    Ok(())
}

/// LIST and BEST.
fn compare_sessions(planner: &impl Planner, file: &[u8], plan: &Plan, random: &mut Random) -> Result<Sessions, String> {
    refuses_cap(planner, file, refusal(7, 0), 0, random)?;
    let many = plan.term.variant_count() > 200;
    // a cap, and the steps that the reference may take
    let (most, steps) = match random.below(200) {
        0 => (20_000, 60_000),
        n if many && n < 12 => (20_000, 600_000),
        _ if many => random.pick(&[(10, 2000), (40, 2000)]),
        _ => random.pick(&[(10, 2000), (50, 4000), (200, 6000), (1000, 10_000)]),
    };
    match rows(plan, most, steps) {
        Rows::Unsettled => Ok(Sessions::Open),
        Rows::OverCap => {
            refuses_cap(planner, file, refusal(7, 0), most as u32, random)?;
            refuses_cap(planner, file, refusal(7, 0), random.below(most) as u32, random)?;
            Ok(Sessions::OverCap)
        }
        Rows::All(rows, active) => {
            let count = rows.len() as u64;
            refuses_cap(planner, file, refusal(7, 0), count as u32 - 1, random)?;
            let larger = random.pick(&[count as u32 + 1, 1_000_000, u32::MAX]);
            for cap in [count as u32, larger] {
                compare_list(planner, file, cap, &rows, random)?;
                compare_best(planner, file, cap, plan, &rows, random)?;
            }
            if plan.edition == 1 {
                // the same plan in the other edition
                let other = Plan { edition: 2, ..plan.clone() }.text();
                compare_list(planner, &other, larger, &rows, random)?;
                compare_best(planner, &other, larger, plan, &rows, random)?;
            }
            Ok(Sessions::Listed(Listed::new(plan, &rows, &active)))
        }
    }
}

fn compare_list(planner: &impl Planner, file: &[u8], cap: u32, rows: &[Vec<u32>], random: &mut Random) -> Difference {
    let cells = rows.concat();
    let needed = cells.len();
    for length in lengths(random, needed) {
        let mut area = Area::new(random, length, |n| n as u32);
        let got = planner.list(file, cap, area.lent());
        if length < needed {
            same("list", Err(refusal(8, needed as u64)), got)?;
            area.untouched("list", 0)?;
        } else {
            same("list", Ok(rows.len() as u64), got)?;
            same("list: cells", &cells[..], &area.lent()[..needed])?;
            area.untouched("list", needed)?;
        }
    }
    Ok(())
}

fn compare_best(
    planner: &impl Planner,
    file: &[u8],
    cap: u32,
    plan: &Plan,
    rows: &[Vec<u32>],
    random: &mut Random,
) -> Difference {
    let mut starts = Area::new(random, PLACES, |n| n as u32);
    let found = best(planner, file, cap, &mut starts);
    starts.untouched("best", PLACES)?;
    let (expected, timetable) = first_shortest(plan, rows);
    same("best", Ok(expected), found)?;
    same("best: starts", &timetable[..], starts.lent())
}
