//! Prints the tables: the planner's time, a native peer's and a plain enumerator's, for plans of either edition.

mod peer;
mod plans;

use planner::{Best, Planner, MARK};
use plans::Plan;
use reference::file::parse;
use reference::orders;
use reference::project::{Project, Schedule};
use reference::rows::{rows, Rows};
use reference::{first_shortest, is_session};
use std::collections::{HashMap, HashSet};

#[cfg(not(feature = "stand-in"))]
const PLANNER: (planner::Linked, &str) = (planner::Linked, "planner");

#[cfg(feature = "stand-in")]
const PLANNER: (reference::Reference, &str) = (reference::Reference, "stand-in");

/// The stand-in is slow: it is not timed on more sessions than this.
fn is_timed(sessions: u64) -> bool {
    !cfg!(feature = "stand-in") || sessions <= 50_000
}

/// The enumerator tries every order on every resource: no more combinations than this.
const MOST_FOR_ENUMERATOR: u64 = 2_000_000;

/// In edition 2 it adds activities by rising start: no more sessions than this.
const MOST_BY_START: u64 = 200_000;

const CAP: u32 = 1_000_000;

const RUNS: u32 = 15;

extern "C" {
    fn clock_gettime(clock: i32, time: *mut [i64; 2]) -> i32;
}

/// The CPU time of this thread, in seconds. The planner's and the peer's calls make no system calls, so theirs is user
/// time; the kernel's own figure for user time alone is too coarse.
fn user_time() -> f64 {
    const CLOCK_THREAD_CPUTIME_ID: i32 = 3;
    let mut time = [0; 2];
    unsafe { clock_gettime(CLOCK_THREAD_CPUTIME_ID, &mut time) };
    time[0] as f64 + time[1] as f64 * 1e-9
}

/// A call that is timed, and the buffer that it writes into.
struct Timed<F> {
    call: F,
    buffer: Vec<u32>,
    calls: u32,
    best: f64,
}

impl<T, F: Fn(&mut [u32]) -> T> Timed<F> {
    /// A run is as many calls as take some 20 ms.
    fn new(length: usize, call: F) -> Self {
        let mut timed = Timed { call, buffer: vec![0; length], calls: 1, best: f64::INFINITY };
        timed.run();
        timed.calls = (0.02 / timed.best).clamp(1.0, 20_000.0) as u32;
        timed
    }

    fn run(&mut self) {
        self.buffer.fill(0);
        let begin = user_time();
        for _ in 0..self.calls {
            std::hint::black_box((self.call)(&mut self.buffer));
        }
        self.best = self.best.min((user_time() - begin) / f64::from(self.calls));
    }
}

/// The best times of the planner's call, if it is to be timed, and of the peer's, their runs taking turns. Slow calls
/// have fewer runs.
fn race<T>(
    length: usize,
    planner: Option<impl Fn(&mut [u32]) -> T>,
    peer: impl Fn(&mut [u32]) -> T,
) -> (Option<f64>, f64) {
    let mut planner = planner.map(|call| Timed::new(length, call));
    let mut peer = Timed::new(length, peer);
    let begin = user_time();
    for _ in 0..RUNS {
        planner.iter_mut().for_each(Timed::run);
        peer.run();
        if user_time() - begin > 4.0 {
            break;
        }
    }
    (planner.map(|timed| timed.best), peer.best)
}

fn shown(seconds: Option<f64>) -> String {
    match seconds {
        None => "-".into(),
        Some(s) if s < 1e-6 => format!("{:.1} ns", s * 1e9),
        Some(s) if s < 1e-3 => format!("{:.1} us", s * 1e6),
        Some(s) if s < 1.0 => format!("{:.2} ms", s * 1e3),
        Some(s) => format!("{s:.2} s"),
    }
}

fn ratio(a: Option<f64>, b: Option<f64>) -> String {
    match (a, b) {
        (Some(a), Some(b)) if a < 100.0 * b => format!("{:.2}", a / b),
        (Some(a), Some(b)) => format!("{:.0}", a / b),
        _ => "-".into(),
    }
}

/// The shortest makespan, the number of sessions, each counted once, and how many of them are shortest; none where
/// there is too much to try.
fn enumerated(plan: &reference::file::Plan) -> Option<[u64; 3]> {
    match plan.edition {
        1 => by_orders(plan),
        _ => by_start(plan),
    }
}

fn by_start(plan: &reference::file::Plan) -> Option<[u64; 3]> {
    match rows(plan, MOST_BY_START, u64::MAX) {
        Rows::All(rows, _) => Some(numbers(first_shortest(plan, &rows).0)),
        _ => None,
    }
}

fn numbers(best: Best) -> [u64; 3] {
    [best.makespan, best.count, best.shortest]
}

/// By every order on every resource.
fn by_orders(plan: &reference::file::Plan) -> Option<[u64; 3]> {
    let project = |variant: u64| Project::new(plan, &plan.term.variant(variant));
    let variants = 0..plan.term.variant_count();
    let mut left = MOST_FOR_ENUMERATOR;
    for variant in variants.clone() {
        left -= orders::combinations(&project(variant), left)?;
    }
    let mut by_activities: HashMap<Vec<usize>, (Project, HashSet<Schedule>)> = HashMap::new();
    for variant in variants {
        let project = project(variant);
        let found = orders::active_schedules(&project);
        match by_activities.get_mut(&project.numbers) {
            Some((_, others)) => others.extend(found),
            None => drop(by_activities.insert(project.numbers.clone(), (project, found))),
        }
    }
    let mut makespans = vec![];
    for (project, found) in by_activities.values() {
        makespans.extend(found.iter().map(|starts| project.makespan(starts)));
    }
    let makespan = *makespans.iter().min().unwrap();
    let shortest = makespans.iter().filter(|&&other| other == makespan).count();
    Some([makespan, makespans.len() as u64, shortest as u64])
}

fn best_table(title: &str, plans: &[Plan]) {
    let (planner, name) = PLANNER;
    println!("\n{title}\n");
    print!("{:<24} {:>4} {:>4} {:>9} {:>8}", "plan", "acts", "V", "sessions", "makespan");
    print!("  {name:>9} {:>9} {:>9} {:>9}", "each", "peer", "each");
    println!(" {:>8}  {:>10} {:>8}", "ratio", "enumerator", "ratio");
    for Plan { name, file } in plans {
        let plan = parse(file).unwrap();
        let mut starts = [MARK; 24];
        let found = peer::best(file, CAP, &mut starts);
        let sessions = found.map_or(u64::from(CAP) + 1, |best| best.count);
        let by_planner = |starts: &mut [u32]| planner.best(file, CAP, starts.try_into().unwrap());
        let by_peer = |starts: &mut [u32]| peer::best(file, CAP, starts.try_into().unwrap());
        if is_timed(sessions) {
            let mut planned = [MARK; 24];
            assert_eq!((by_planner(&mut planned), planned), (found, starts), "{name}");
            let is_session = |v| is_session(&plan, &plan.term.variant(v), &starts);
            assert!(found.map_or(true, |best| is_session(best.variant)), "{name}");
        }
        let (time, peer_time) = race(24, is_timed(sessions).then_some(by_planner), by_peer);
        let begin = user_time();
        let enumerator_time = enumerated(&plan).map(|expected| {
            assert_eq!(found.map(numbers), Ok(expected), "{name}");
            user_time() - begin
        });
        let (count, makespan) = match found {
            Ok(best) => (best.count.to_string(), best.makespan.to_string()),
            Err(_) => (format!("> {CAP}"), "-".into()),
        };
        let each = |time: Option<f64>| shown(time.map(|time| time / sessions as f64));
        let (activities, variants) = (plan.activities.len(), plan.term.variant_count());
        print!("{name:<24} {activities:>4} {variants:>4} {count:>9} {makespan:>8}");
        print!("  {:>9} {:>9} {:>9} {:>9}", shown(time), each(time), shown(Some(peer_time)), each(Some(peer_time)));
        print!(" {:>8}", ratio(time, Some(peer_time)));
        println!("  {:>10} {:>8}", shown(enumerator_time), ratio(enumerator_time, time));
    }
}

struct Listing {
    rows: u64,
    cells: usize,
    /// The planner's, if it is timed, and the peer's.
    times: [Option<f64>; 2],
}

/// None where there are more sessions than the cap.
fn listing(Plan { name, file }: &Plan) -> Option<Listing> {
    let (planner, _) = PLANNER;
    let rows = peer::best(file, CAP, &mut [0; 24]).ok()?.count;
    let cells = rows as usize * (parse(file).unwrap().activities.len() + 1);
    let by_planner = |area: &mut [u32]| planner.list(file, CAP, area);
    let by_peer = |area: &mut [u32]| peer::list(file, CAP, area);
    if is_timed(rows) {
        let mut areas = [vec![0; cells], vec![0; cells]];
        assert_eq!([by_planner(&mut areas[0]), by_peer(&mut areas[1])], [Ok(rows); 2], "{name}");
        assert!(areas[0] == areas[1], "{name}: the rows differ");
    }
    let (time, peer_time) = race(cells, is_timed(rows).then_some(by_planner), by_peer);
    Some(Listing { rows, cells, times: [time, Some(peer_time)] })
}

fn list_table(title: &str, plans: &[Plan]) {
    println!("\n{title}\n");
    println!("{:<24} {:>9} {:>9}  {:>9} {:>9} {:>8}", "plan", "rows", "cells", PLANNER.1, "peer", "ratio");
    for plan in plans {
        let Some(Listing { rows, cells, times: [time, peer_time] }) = listing(plan) else {
            continue;
        };
        print!("{:<24} {rows:>9} {cells:>9}", plan.name);
        println!("  {:>9} {:>9} {:>8}", shown(time), shown(peer_time), ratio(time, peer_time));
    }
}

fn list_growth(title: &str, plans: &[Plan]) {
    println!("\n{title}; each row: its time, the first plan's being 1\n");
    print!("{:<24} {:>9} {:>9}", "plan", "rows", "cells");
    println!("  {:>9} {:>9} {:>9} {:>9} {:>8}", PLANNER.1, "each row", "peer", "each row", "ratio");
    let mut first = None;
    for plan in plans {
        let Some(Listing { rows, cells, times: [time, peer_time] }) = listing(plan) else {
            continue;
        };
        let each = [time, peer_time].map(|time| time.map(|time| time / rows as f64));
        let [by_planner, by_peer] = *first.get_or_insert(each);
        print!("{:<24} {rows:>9} {cells:>9}  {:>9} {:>9}", plan.name, shown(time), ratio(each[0], by_planner));
        println!(" {:>9} {:>9} {:>8}", shown(peer_time), ratio(each[1], by_peer), ratio(time, peer_time));
    }
}

fn main() {
    println!("User time of one call, the best of {RUNS} runs; every buffer is cleared before a run.");
    println!("Cap {CAP}. Each: the time divided by the number of sessions.");
    println!("Ratios: planner to peer, and enumerator to planner.");
    if cfg!(feature = "stand-in") {
        println!("The reference stands in for the planner.");
    }
    let plans = plans::main_plans();
    best_table("BEST", &plans);
    list_table("LIST", &plans);
    list_growth("Growth of LIST with the number of rows", &plans::by_rows());
    best_table("BEST against the number of sessions", &plans::by_sessions());
    best_table("BEST against the number of activities", &plans::by_activities());
    let arms = plans::arm_plans();
    best_table("BEST, edition 2", &arms);
    list_table("LIST, edition 2", &arms);
    best_table("BEST against the number of sessions, edition 2", &plans::arms_by_sessions());
    best_table("BEST against the number of activities, edition 2", &plans::arms_by_activities());
}
