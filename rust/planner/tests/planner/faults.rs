//! Planners that are wrong in one way: the harness finds each of them out.

use crate::compare::compare;
use crate::plans::plan_file;
use calls::{Answer, Best, Planner, Refusal, Size, Timetable, MARK};
use reference::file::{parse, Activity, Plan};
use reference::insertion::{active_schedules, Found};
use reference::orders::each_earliest;
use reference::project::{Project, Schedule};
use reference::random::Random;
use reference::rows::{row_of, Rows};
use reference::{is_session, makespan_of, refusal, Reference};
use std::collections::HashSet;

#[derive(Clone, Copy, Debug, PartialEq)]
enum Fault {
    None,
    ReadRefusesAll,
    ReadTakesMissingNewline,
    ReadTakesLeadingZero,
    ReadTakesGroupOfOne,
    ReadTakes20001,
    ReadTakesOverCapacity,
    ReadFillsInUnits,
    ReadLimitsEdition1To983,
    GroupOfOneAsRange,
    OverCapacityAsRange,
    OverCapacityBeforeRange,
    FigureOffByOne,
    VariantsReversed,
    WriteKeepsNested,
    WriteLosesCapacities,
    WriteForgetsEdition,
    WriteTouchesPastTheEnd,
    WriteTouchesOnRefusal,
    CheckForgetsResources,
    CheckForgetsSecondResource,
    CheckTakesOneUnitForAny,
    CheckTakesOneAtATime,
    CheckWantsAUnitLeft,
    CheckTakesTwoByTwo,
    CheckLooksAtEnds,
    CheckForgetsMarks,
    CheckMarks65535,
    CheckEndsWrap,
    CheckWantsActive,
    ListWritesNothing,
    ListRepeatsARow,
    ListRepeatsEqualStarts,
    ListForgetsSecondResource,
    ListTakesOneUnitForAny,
    ListTakesOneAtATime,
    ListTouchesPastTheEnd,
    ListExchangesTwoRows,
    ListForgetsVariants,
    ListFromLastActivity,
    ListMarks65535,
    ListCutsStarts,
    FirstVariantForAll,
    NothingWaits,
    SlidesOnly,
    SharedUnderEach,
    SharedUnderHighest,
    SharedInOneOrderOnly,
    SharedWithVariantBeforeOnly,
    SharedIfFeasible,
    SharedByStartsAlone,
    CapCountsPairs,
    BestRefusesCapUnseen,
    BestTouchesOnRefusal,
    BestOfFirstVariant,
    BestByLongestChain,
    BestLeavesMarks,
    BestMarks65535,
    BestCutsStarts,
    BestIsLastShortest,
    BestForgetsVariants,
    BestCountsPairs,
    BestCountInvented,
    ShortestIsOne,
    ShortestIsAll,
    ShortestOfItsVariant,
    ShortestCountsPairs,
    ShortestSoFar,
}

/// Those in which a session of several variants is not one row under the lowest.
const SHARED: [Fault; 6] = [
    Fault::SharedUnderEach,
    Fault::SharedUnderHighest,
    Fault::SharedInOneOrderOnly,
    Fault::SharedWithVariantBeforeOnly,
    Fault::SharedIfFeasible,
    Fault::SharedByStartsAlone,
];

/// Those in which LIST goes by other units.
const LIST_UNITS: [Fault; 3] =
    [Fault::ListForgetsSecondResource, Fault::ListTakesOneUnitForAny, Fault::ListTakesOneAtATime];

struct Faulty(Fault);

impl Faulty {
    fn has(&self, fault: Fault) -> bool {
        self.0 == fault
    }

    /// The rows of the plan with the fault in them.
    fn rows(&self, file: &[u8], cap: u32) -> Answer<(Plan, Vec<Vec<u32>>)> {
        let (plan, mut rows) = Reference.rows(file, cap)?;
        if self.has(Fault::FirstVariantForAll) {
            let first: Vec<_> = rows.iter().filter(|row| row[0] == 0).cloned().collect();
            rows.iter_mut().enumerate().for_each(|(i, row)| row[1..].copy_from_slice(&first[i % first.len()][1..]));
        }
        if self.has(Fault::ListRepeatsARow) && rows.len() > 1 {
            rows[0] = rows[1].clone();
        }
        if self.has(Fault::NothingWaits) {
            rows.retain(|row| !waits(&plan, row));
        }
        if self.has(Fault::SlidesOnly) && projects(&plan).iter().all(Project::is_one_unit) {
            rows = earliest_rows(&plan);
        }
        if self.has(Fault::ListRepeatsEqualStarts) {
            let again: Vec<_> = rows.iter().filter(|row| has_equal_starts(&plan, row)).cloned().collect();
            rows.extend(again);
            rows.sort();
        }
        if LIST_UNITS.contains(&self.0) {
            rows = match reference::rows::rows(&self.other_units(&plan), u64::from(cap), u64::MAX) {
                Rows::All(rows, _) => rows,
                _ => return Err(refusal(7, 0)),
            };
        }
        if SHARED.contains(&self.0) {
            rows = self.shared_rows(&plan);
        }
        if self.has(Fault::CapCountsPairs) && pairs(&plan).len() as u64 > u64::from(cap) {
            return Err(refusal(7, 0));
        }
        Ok((plan, rows))
    }

    /// The rows, where it is by another rule that one is left out.
    fn shared_rows(&self, plan: &Plan) -> Vec<Vec<u32>> {
        let projects = projects(plan);
        let found: Vec<Vec<Schedule>> = projects.iter().map(active).collect();
        let same_activities = |u: usize, v: usize| projects[u].numbers == projects[v].numbers;
        let has = |u: usize, starts: &Schedule| found[u].binary_search(starts).is_ok();
        let is_left_out = |v: usize, starts: &Schedule| match self.0 {
            Fault::SharedUnderHighest => (v + 1..projects.len()).any(|u| same_activities(u, v) && has(u, starts)),
            Fault::SharedInOneOrderOnly => {
                (0..v).any(|u| same_activities(u, v) && projects[u].before == projects[v].before)
            }
            Fault::SharedWithVariantBeforeOnly => v > 0 && same_activities(v - 1, v) && has(v - 1, starts),
            Fault::SharedIfFeasible => (0..v).any(|u| same_activities(u, v) && projects[u].is_feasible(starts)),
            Fault::SharedByStartsAlone => (0..v).any(|u| has(u, starts)),
            _ => false,
        };
        let kept = |v: usize| found[v].iter().filter(move |starts| !is_left_out(v, starts));
        let rows = |v: usize| kept(v).map(|starts| row_of(plan, v as u64, &projects[v], starts)).collect::<Vec<_>>();
        (0..projects.len()).flat_map(rows).collect()
    }

    /// The text of a variant where it is another.
    fn other_text(&self, plan: &Plan, variant: u64) -> Option<Vec<u8>> {
        let text = plan.written(variant).ok()?;
        match self.0 {
            Fault::WriteKeepsNested => Some(plan.text_of(&plan.term.variant(variant))),
            Fault::WriteForgetsEdition => Some([b"plan=1", &text[6..]].concat()),
            Fault::WriteLosesCapacities => {
                let lines = text.split_inclusive(|&b| b == 10).filter(|line| !line.starts_with(b"cap="));
                Some(lines.collect::<Vec<_>>().concat())
            }
            _ => None,
        }
    }

    /// The plan with the units by which a faulty planner goes.
    fn other_units(&self, plan: &Plan) -> Plan {
        let mut plan = plan.clone();
        if self.has(Fault::CheckWantsAUnitLeft) {
            plan.capacities.iter_mut().for_each(|capacity| *capacity -= 1);
        }
        if self.has(Fault::CheckTakesOneAtATime) || self.has(Fault::ListTakesOneAtATime) {
            plan.capacities.fill(1);
        }
        for Activity { units, .. } in &mut plan.activities {
            match self.0 {
                Fault::CheckForgetsResources => units.fill(0),
                Fault::CheckForgetsSecondResource | Fault::ListForgetsSecondResource => {
                    let first = units.iter().position(|&count| count > 0).unwrap_or(0);
                    units[first + 1..].fill(0);
                }
                Fault::CheckTakesOneUnitForAny
                | Fault::ListTakesOneUnitForAny
                | Fault::CheckTakesOneAtATime
                | Fault::ListTakesOneAtATime => units.iter_mut().for_each(|count| *count = 1.min(*count)),
                _ => {}
            }
        }
        plan
    }

    /// How many rows BEST counts, and how many as short as the one that it found.
    fn numbers(&self, plan: &Plan, rows: &[Vec<u32>], found: &[u32]) -> (u64, u64) {
        let count = match self.0 {
            Fault::BestCountInvented => rows.len() + 1,
            Fault::BestCountsPairs => pairs(plan).len(),
            _ => rows.len(),
        };
        let makespan = makespan_of(plan, found);
        let is_as_short = |row: &&Vec<u32>| makespan_of(plan, row) == makespan;
        let mut least = u64::MAX;
        let is_least_so_far = |row: &&Vec<u32>| {
            least = least.min(makespan_of(plan, row));
            makespan_of(plan, row) == least
        };
        let shortest = match self.0 {
            Fault::ShortestIsOne => 1,
            Fault::ShortestIsAll => rows.len(),
            Fault::ShortestOfItsVariant => rows.iter().filter(is_as_short).filter(|row| row[0] == found[0]).count(),
            Fault::ShortestCountsPairs => pairs(plan).iter().filter(|&&other| other == makespan).count(),
            Fault::ShortestSoFar => rows.iter().filter(is_least_so_far).count(),
            _ => rows.iter().filter(is_as_short).count(),
        };
        (count as u64, shortest as u64)
    }

    fn variant(&self, plan: &Plan, variant: u64) -> u64 {
        let count = plan.term.variant_count();
        if self.has(Fault::VariantsReversed) && variant < count {
            count - 1 - variant
        } else {
            variant
        }
    }
}

fn projects(plan: &Plan) -> Vec<Project> {
    (0..plan.term.variant_count()).map(|v| Project::new(plan, &plan.term.variant(v))).collect()
}

/// The active schedules of one variant, in order.
fn active(project: &Project) -> Vec<Schedule> {
    match active_schedules(project, u64::MAX, &mut u64::MAX.clone()) {
        Found::All(mut found) => {
            found.sort();
            found
        }
        _ => unreachable!(),
    }
}

/// The makespans of the pairs of a variant and an active session of it.
fn pairs(plan: &Plan) -> Vec<u64> {
    let mut makespans = vec![];
    for project in projects(plan) {
        makespans.extend(active(&project).iter().map(|starts| project.makespan(starts)));
    }
    makespans
}

/// Does an activity wait although its predecessors are done and there is room for it on a tick before its start?
fn waits(plan: &Plan, row: &[u32]) -> bool {
    let project = Project::new(plan, &plan.term.variant(u64::from(row[0])));
    let starts: Vec<u64> = project.numbers.iter().map(|&i| u64::from(row[i + 1])).collect();
    let all = || 0..project.size();
    let placed = vec![true; project.size()];
    all().any(|j| {
        let ready = all().filter(|&i| project.before[i][j]).map(|i| project.end(&starts, i)).max().unwrap_or(0);
        // room comes with an end
        let ends = all().map(|i| project.end(&starts, i));
        let is_sooner = |t: &u64| (ready..starts[j]).contains(t);
        ends.chain([ready]).filter(is_sooner).any(|t| project.has_room(&starts, &placed, j, t))
    })
}

/// Do two activities that share a resource start on one tick?
fn has_equal_starts(plan: &Plan, row: &[u32]) -> bool {
    let project = Project::new(plan, &plan.term.variant(u64::from(row[0])));
    let start = |i: usize| row[project.numbers[i] + 1];
    (0..project.size()).any(|j| (0..j).any(|i| start(i) == start(j) && project.share(i, j)))
}

/// Is it a session by another test of what runs together?
fn is_other_session(fault: Fault, project: &Project, starts: &[u64]) -> bool {
    let wrap = if fault == Fault::CheckEndsWrap { 1 << 32 } else { u64::MAX };
    let end = |i: usize| project.end(starts, i) % wrap;
    let all = || 0..project.size();
    let in_order = |i: usize, j: usize| !project.before[i][j] || end(i) <= starts[j];
    let runs = |i: usize, tick: u64| starts[i] <= tick && tick < end(i);
    let fit = |set: &[usize], tick: u64| {
        let held = |r: usize| set.iter().filter(|&&i| runs(i, tick)).map(|&i| project.units[i][r]).sum::<u64>();
        (0..project.capacities.len()).all(|r| held(r) <= project.capacities[r])
    };
    let everything: Vec<usize> = all().collect();
    let all_fit = match fault {
        Fault::CheckTakesTwoByTwo => all().all(|i| (0..i).all(|j| fit(&[i, j], starts[i]) && fit(&[i, j], starts[j]))),
        Fault::CheckLooksAtEnds => all().all(|i| fit(&everything, end(i))),
        _ => all().all(|i| fit(&everything, starts[i])),
    };
    all_fit && all().all(|i| all().all(|j| in_order(i, j)))
}

/// A row for each schedule in which no activity can slide, though one may fit into an earlier gap.
fn earliest_rows(plan: &Plan) -> Vec<Vec<u32>> {
    let mut rows = vec![];
    for variant in 0..plan.term.variant_count() {
        let project = Project::new(plan, &plan.term.variant(variant));
        each_earliest(&project, &mut |starts| rows.push(row_of(plan, variant, &project, &starts)));
    }
    rows.sort();
    let mut seen = HashSet::new();
    rows.retain(|row| seen.insert(row[1..].to_vec()));
    rows
}

fn lines_of(file: &[u8]) -> Vec<String> {
    String::from_utf8_lossy(file).split_terminator('\n').map(str::to_string).collect()
}

/// The file with another line in the place of one.
fn with_line(file: &[u8], line: u64, change: impl Fn(&str) -> String) -> Vec<u8> {
    let mut lines = lines_of(file);
    lines[line as usize - 1] = change(&lines[line as usize - 1]);
    (lines.join("\n") + "\n").into_bytes()
}

/// The counts of an activity all 0.
fn without_units(line: &str) -> String {
    let (duration, counts) = line.split_once(',').unwrap();
    duration.to_string() + &",0".repeat(counts.split(',').count())
}

fn is_activity(file: &[u8], line: u64) -> bool {
    lines_of(file).get(line as usize - 1).is_some_and(|line| line.starts_with("act="))
}

/// Is the line of an activity that has a count above its device's capacity?
fn is_over_capacity(file: &[u8], line: u64) -> bool {
    let lines = lines_of(file);
    let capacities = lines.iter().filter_map(|line| line.strip_prefix("cap=")).map(|value| value.parse().unwrap_or(0));
    let counts = lines[line as usize - 1].strip_prefix("act=").into_iter().flat_map(|values| values.split(',').skip(1));
    counts.zip(capacities).any(|(count, capacity)| count.parse::<u64>().unwrap_or(0) > capacity)
}

/// The file without the node on a line.
fn without_node(file: &[u8], line: u64) -> Vec<u8> {
    let text = String::from_utf8_lossy(file);
    let mut lines: Vec<String> = text.split_inclusive('\n').map(str::to_string).collect();
    lines.remove(line as usize - 1);
    for line in &mut lines {
        if let Some(count) = line.strip_prefix("nodes=") {
            *line = format!("nodes={}\n", count.trim_end().parse::<u64>().unwrap() - 1);
        }
    }
    lines.concat().into_bytes()
}

/// 65535 is the mark, and the mark a start.
fn exchange_marks(cells: &mut [u32]) {
    for cell in cells {
        *cell = match *cell {
            65535 => MARK,
            MARK => 65535,
            start => start,
        };
    }
}

/// Starts keep their low 16 bits.
fn cut_starts(cells: &mut [u32]) {
    cells.iter_mut().filter(|cell| **cell != MARK).for_each(|cell| *cell %= 1 << 16);
}

impl Planner for Faulty {
    fn read(&self, file: &[u8]) -> Answer<Size> {
        if self.has(Fault::ReadRefusesAll) {
            return Err(refusal(2, 1));
        }
        if self.has(Fault::ReadTakesMissingNewline) && file.last() != Some(&10) {
            return Reference.read(&[file, b"\n"].concat());
        }
        if self.has(Fault::ReadTakesLeadingZero) {
            let text = String::from_utf8_lossy(file).replace(",0", ",").replace(",\n", ",0\n").replace(",,", ",0,");
            return Reference.read(file).or(Reference.read(text.as_bytes()).or(Reference.read(file)));
        }
        if self.has(Fault::ReadTakes20001) {
            let text = String::from_utf8_lossy(file).replace(",20001\n", ",20000\n");
            return Reference.read(file).or(Reference.read(text.as_bytes()).or(Reference.read(file)));
        }
        if self.has(Fault::ReadLimitsEdition1To983) && file.starts_with(b"plan=1\n") && file.len() > 983 {
            return Err(refusal(1, 0));
        }
        let answer = Reference.read(file);
        match (self.0, answer) {
            (Fault::ReadTakesGroupOfOne, Err(Refusal { number: 10, figure })) => {
                return self.read(&without_node(file, figure)).map(|size| Size { nodes: size.nodes + 1, ..size });
            }
            (Fault::GroupOfOneAsRange, Err(Refusal { number: 10, figure }))
            | (Fault::OverCapacityAsRange, Err(Refusal { number: 11, figure })) => return Err(refusal(3, figure)),
            (Fault::ReadTakesOverCapacity, Err(Refusal { number: 11, figure })) => {
                return self.read(&with_line(file, figure, without_units));
            }
            (Fault::ReadFillsInUnits, Err(Refusal { number: 2, figure })) if is_activity(file, figure) => {
                return Reference.read(&with_line(file, figure, |line| line.to_string() + ",0")).or(answer);
            }
            (Fault::OverCapacityBeforeRange, Err(Refusal { number: 3, figure })) if is_over_capacity(file, figure) => {
                return Err(refusal(11, figure));
            }
            _ => {}
        }
        answer.map_err(|refused| Refusal {
            figure: refused.figure - u64::from(self.has(Fault::FigureOffByOne) && refused.figure > 4),
            ..refused
        })
    }

    fn write(&self, file: &[u8], variant: u64, area: &mut [u8]) -> Answer<u64> {
        let plan = parse(file)?;
        if let Some(text) = self.other_text(&plan, variant) {
            if area.len() < text.len() {
                return Err(refusal(8, text.len() as u64));
            }
            area[..text.len()].copy_from_slice(&text);
            return Ok(text.len() as u64);
        }
        let answer = Reference.write(file, self.variant(&plan, variant), area);
        match answer {
            Ok(length) if self.has(Fault::WriteTouchesPastTheEnd) && length < area.len() as u64 => {
                area[length as usize] = 0;
            }
            Err(_) if self.has(Fault::WriteTouchesOnRefusal) && !area.is_empty() => area[0] = b'p',
            _ => {}
        }
        answer
    }

    fn check(&self, file: &[u8], variant: u64, starts: &Timetable) -> Answer<bool> {
        let plan = parse(file)?;
        let mut starts = *starts;
        if self.has(Fault::CheckForgetsMarks) {
            if let Ok(chosen) = plan.variant(variant) {
                let absent = |i: &usize| !chosen.leaves().iter().any(|leaf| leaf.activity == *i);
                (0..24).filter(absent).for_each(|i| starts[i] = MARK);
            }
        }
        if self.has(Fault::CheckMarks65535) {
            exchange_marks(&mut starts);
        }
        let chosen = plan.variant(variant)?;
        let plan = self.other_units(&plan);
        let project = Project::new(&plan, &chosen);
        let present: Vec<u64> = project.numbers.iter().map(|&i| u64::from(starts[i])).collect();
        let marked = (0..24).all(|i| (starts[i] == MARK) != project.numbers.contains(&i));
        Ok(match self.0 {
            Fault::CheckWantsActive => is_session(&plan, &chosen, &starts) && project.is_settled(&present),
            Fault::CheckEndsWrap | Fault::CheckTakesTwoByTwo | Fault::CheckLooksAtEnds => {
                marked && is_other_session(self.0, &project, &present)
            }
            _ => is_session(&plan, &chosen, &starts),
        })
    }

    fn list(&self, file: &[u8], cap: u32, area: &mut [u32]) -> Answer<u64> {
        let (_, mut rows) = self.rows(file, cap)?;
        match self.0 {
            Fault::ListExchangesTwoRows if rows.len() > 1 => rows.swap(0, 1),
            Fault::ListForgetsVariants => rows.sort_by_key(|row| row[1..].to_vec()),
            Fault::ListFromLastActivity => rows.sort_by_key(|row| {
                let mut key = row.clone();
                key[1..].reverse();
                key
            }),
            _ => {}
        }
        let mut cells = rows.concat();
        match self.0 {
            Fault::ListMarks65535 => exchange_marks(&mut cells),
            Fault::ListCutsStarts => cut_starts(&mut cells),
            _ => {}
        }
        if area.len() < cells.len() {
            return Err(refusal(8, cells.len() as u64));
        }
        if !self.has(Fault::ListWritesNothing) {
            area[..cells.len()].copy_from_slice(&cells);
        }
        if self.has(Fault::ListTouchesPastTheEnd) && cells.len() < area.len() {
            area[cells.len()] = 0;
        }
        Ok(rows.len() as u64)
    }

    fn best(&self, file: &[u8], cap: u32, starts: &mut Timetable) -> Answer<Best> {
        if self.has(Fault::BestTouchesOnRefusal) {
            starts[0] = 0;
        }
        let (plan, mut rows) = self.rows(file, cap)?;
        match self.0 {
            Fault::BestRefusesCapUnseen if cap < 1000 => return Err(refusal(7, 0)),
            Fault::BestIsLastShortest => rows.reverse(),
            Fault::BestForgetsVariants => rows.sort_by_key(|row| row[1..].to_vec()),
            _ => {}
        }
        let chain = |row: &[u32]| {
            let project = Project::new(&plan, &plan.term.variant(u64::from(row[0])));
            project.longest_chain()
        };
        let key = |row: &&Vec<u32>| match self.0 {
            Fault::BestOfFirstVariant => (u64::from(row[0]), makespan_of(&plan, row)),
            Fault::BestByLongestChain => (chain(row), makespan_of(&plan, row)),
            _ => (makespan_of(&plan, row), 0),
        };
        let row = rows.iter().min_by_key(key).ok_or(refusal(7, 0))?;
        if !self.has(Fault::BestLeavesMarks) {
            starts.fill(MARK);
        }
        starts[..row.len() - 1].copy_from_slice(&row[1..]);
        match self.0 {
            Fault::BestMarks65535 => exchange_marks(starts),
            Fault::BestCutsStarts => cut_starts(starts),
            _ => {}
        }
        let (count, shortest) = self.numbers(&plan, &rows, row);
        Ok(Best { variant: u64::from(row[0]), makespan: makespan_of(&plan, row), count, shortest })
    }
}

/// The number of the first plan on which the harness finds a difference.
fn found_out(fault: Fault) -> Option<u64> {
    let planner = Faulty(fault);
    (0..3000).find(|&number| {
        let mut random = Random(number);
        let (_, file) = plan_file(&mut random);
        compare(&planner, &file, &mut random).is_err()
    })
}

#[test]
fn each_fault_is_found_out() {
    assert_eq!(found_out(Fault::None), None);
    let others = [
        Fault::ReadRefusesAll,
        Fault::ReadTakesMissingNewline,
        Fault::ReadTakesLeadingZero,
        Fault::ReadTakesGroupOfOne,
        Fault::ReadTakes20001,
        Fault::ReadTakesOverCapacity,
        Fault::ReadFillsInUnits,
        Fault::ReadLimitsEdition1To983,
        Fault::GroupOfOneAsRange,
        Fault::OverCapacityAsRange,
        Fault::OverCapacityBeforeRange,
        Fault::FigureOffByOne,
        Fault::VariantsReversed,
        Fault::WriteKeepsNested,
        Fault::WriteLosesCapacities,
        Fault::WriteForgetsEdition,
        Fault::WriteTouchesPastTheEnd,
        Fault::WriteTouchesOnRefusal,
        Fault::CheckForgetsResources,
        Fault::CheckForgetsSecondResource,
        Fault::CheckTakesOneUnitForAny,
        Fault::CheckTakesOneAtATime,
        Fault::CheckWantsAUnitLeft,
        Fault::CheckTakesTwoByTwo,
        Fault::CheckLooksAtEnds,
        Fault::CheckForgetsMarks,
        Fault::CheckMarks65535,
        Fault::CheckEndsWrap,
        Fault::CheckWantsActive,
        Fault::ListWritesNothing,
        Fault::ListRepeatsARow,
        Fault::ListRepeatsEqualStarts,
        Fault::ListForgetsSecondResource,
        Fault::ListTakesOneUnitForAny,
        Fault::ListTakesOneAtATime,
        Fault::ListTouchesPastTheEnd,
        Fault::ListExchangesTwoRows,
        Fault::ListForgetsVariants,
        Fault::ListFromLastActivity,
        Fault::ListMarks65535,
        Fault::ListCutsStarts,
        Fault::FirstVariantForAll,
        Fault::NothingWaits,
        Fault::SlidesOnly,
        Fault::CapCountsPairs,
        Fault::BestRefusesCapUnseen,
        Fault::BestTouchesOnRefusal,
        Fault::BestOfFirstVariant,
        Fault::BestByLongestChain,
        Fault::BestLeavesMarks,
        Fault::BestMarks65535,
        Fault::BestCutsStarts,
        Fault::BestIsLastShortest,
        Fault::BestForgetsVariants,
        Fault::BestCountsPairs,
        Fault::BestCountInvented,
        Fault::ShortestIsOne,
        Fault::ShortestIsAll,
        Fault::ShortestOfItsVariant,
        Fault::ShortestCountsPairs,
        Fault::ShortestSoFar,
    ];
    for fault in others.into_iter().chain(SHARED) {
        assert!(found_out(fault).is_some(), "{fault:?} was not found out");
    }
}
