//! The worked campaigns of the papers, and every file of `campaigns/`.

use crate::compare::compare;
use calls::{Answer, Best, Planner, Size, MARK};
use reference::file::parse;
use reference::random::Random;
use reference::{makespan_of, refusal};

/// The bytes of a text whose lines are shown with `/`.
fn file(text: &str) -> Vec<u8> {
    (text.replace('/', "\n") + "\n").into_bytes()
}

const DOT_TEST: &str = "plan=1/res=3/acts=5/act=0,4/act=1,2/act=1,3/act=2,5/act=1,6/nodes=9/node=s,2/node=x,2\
    /node=a,0/node=p,2/node=a,1/node=a,2/node=p,2/node=a,3/node=a,4";

fn variants(text: &str) -> Answer<u64> {
    crate::planner().read(&file(text)).map(|size| size.variants)
}

fn best(text: &str, cap: u32) -> Answer<(Best, [u32; 24])> {
    let mut starts = [7; 24];
    let best = crate::planner().best(&file(text), cap, &mut starts);
    assert!(best.is_ok() || starts == [7; 24]);
    best.map(|best| (best, starts))
}

/// The rows that LIST gives.
fn listed(text: &str) -> Vec<Vec<u32>> {
    let (planner, file) = (crate::planner(), file(text));
    let count = best(text, u32::MAX).unwrap().0.count;
    let width = planner.read(&file).unwrap().activities as usize + 1;
    let mut area = vec![0; count as usize * width];
    assert_eq!(planner.list(&file, u32::MAX, &mut area), Ok(count));
    area.chunks(width).map(<[u32]>::to_vec).collect()
}

/// Their makespans, rising.
fn makespans(text: &str) -> Vec<u64> {
    let plan = parse(&file(text)).unwrap();
    let mut makespans: Vec<u64> = listed(text).iter().map(|row| makespan_of(&plan, row)).collect();
    makespans.sort();
    makespans
}

#[test]
fn dot_test() {
    let size = Size { activities: 5, nodes: 9, variants: 2 };
    assert_eq!(crate::planner().read(&file(DOT_TEST)), Ok(size));
    let (found, starts) = best(DOT_TEST, 1_000_000).unwrap();
    assert_eq!(found, Best { variant: 0, makespan: 10, count: 3, shortest: 1 });
    assert_eq!(starts[..5], [0, MARK, MARK, 4, 4]);
    assert_eq!(starts[5..], [MARK; 19]);
}

#[test]
fn dot_test_rows() {
    let rows = [[0, 0, MARK, MARK, 4, 4], [1, MARK, 0, 2, 5, 5], [1, MARK, 3, 0, 5, 5]];
    assert_eq!(listed(DOT_TEST), rows);
}

#[test]
fn dot_test_variant_1() {
    let (planner, plan) = (crate::planner(), file(DOT_TEST));
    let mut area = [0; 2175];
    let length = planner.write(&plan, 1, &mut area).unwrap() as usize;
    let text = std::str::from_utf8(&area[..length]).unwrap().trim_end().replace('\n', "/");
    assert_eq!(makespans(&text), [11, 11]);
}

#[test]
fn dot_test_cap_and_area() {
    counted(DOT_TEST, 3, 1);
    assert_eq!(crate::planner().list(&file(DOT_TEST), 0, &mut [0; 18]), Err(refusal(7, 0)));
    assert_eq!(best(DOT_TEST, 0), Err(refusal(7, 0)));
}

#[test]
fn durations() {
    let of = |act: &str| variants(&format!("plan=1/res=1/acts=1/act={act}/nodes=1/node=a,0"));
    assert_eq!(of("0,2000"), Ok(1));
    assert_eq!(of("0,2001"), Ok(1));
    assert_eq!(of("0,20000"), Ok(1));
    assert_eq!(of("0,20001"), Err(refusal(3, 4)));
    assert_eq!(of("0,0"), Err(refusal(3, 4)));
    assert_eq!(of("0,04"), Err(refusal(2, 4)));
}

#[test]
fn groups_of_one() {
    let of = |node: &str| variants(&format!("plan=1/res=1/acts=2/act=0,1/act=0,1/nodes=2/node={node}/node=a,1"));
    for letter in ["s", "p", "x"] {
        assert_eq!(of(&format!("{letter},1")), Err(refusal(10, 7)));
        assert_eq!(of(&format!("{letter},0")), Err(refusal(3, 7)));
        assert_eq!(of(&format!("{letter},64")), Err(refusal(3, 7)));
    }
    assert_eq!(of("a,1"), Err(refusal(4, 0)));
    assert_eq!(variants("plan=1/res=1/acts=2/act=0,1/act=0,1/nodes=1/node=a,1"), Ok(1));
}

/// Caps on both sides of the number of sessions, of which so many are shortest.
fn counted(text: &str, sessions: u32, shortest: u64) {
    let (planner, plan) = (crate::planner(), file(text));
    let cells = sessions as usize * (planner.read(&plan).unwrap().activities as usize + 1);
    assert_eq!(planner.list(&plan, sessions, &mut vec![0; cells]), Ok(u64::from(sessions)));
    assert_eq!(planner.list(&plan, sessions, &mut vec![0; cells - 1]), Err(refusal(8, cells as u64)));
    let numbers = best(text, sessions).map(|(found, _)| (found.count, found.shortest));
    assert_eq!(numbers, Ok((u64::from(sessions), shortest)));
    assert_eq!(planner.list(&plan, sessions - 1, &mut vec![0; cells]), Err(refusal(7, 0)));
    assert_eq!(best(text, sessions - 1), Err(refusal(7, 0)));
}

#[test]
fn activity_0_twice() {
    let x = "plan=1/res=1/acts=1/act=0,1/nodes=3/node=x,2/node=a,0/node=a,0";
    assert_eq!(variants(x), Ok(2));
    assert_eq!(listed(x), [[0, 0]]);
    counted(x, 1, 1);
    assert_eq!(best(x, 1).unwrap().0, Best { variant: 0, makespan: 1, count: 1, shortest: 1 });
    assert_eq!(variants(&x.replace('x', "p")), Err(refusal(5, 0)));
}

/// One device: variants 0 and 1 have a session each, variant 2 has both.
#[test]
fn active_for_0_and_2_but_not_1() {
    let text = "plan=1/res=1/acts=2/act=0,3/act=0,4/nodes=10/node=x,3/node=s,2/node=a,0/node=a,1\
        /node=s,2/node=a,1/node=a,0/node=p,2/node=a,0/node=a,1";
    assert_eq!(variants(text), Ok(3));
    assert_eq!(listed(text), [[0, 0, 3], [1, 4, 0]]);
    counted(text, 2, 2);
    assert_eq!(best(text, 2).unwrap().0, Best { variant: 0, makespan: 7, count: 2, shortest: 2 });
}

/// Two devices: that activity 1 waits for 0 is feasible in variant 0, but active only in variants 1 and 3.
#[test]
fn feasible_for_a_lower_variant() {
    let text = "plan=1/res=2/acts=2/act=0,3/act=1,4/nodes=13/node=x,4/node=p,2/node=a,0/node=a,1\
        /node=s,2/node=a,0/node=a,1/node=p,2/node=a,1/node=a,0/node=s,2/node=a,0/node=a,1";
    assert_eq!(variants(text), Ok(4));
    assert_eq!(listed(text), [[0, 0, 0], [1, 0, 3]]);
    counted(text, 2, 1);
}

/// The shortest session is of both variants, whose orders differ; the other session is of one alone.
#[test]
fn shortest_of_two_variants() {
    let text = |first: &str, second: &str| {
        format!("plan=1/res=2/acts=3/act=0,1/act=0,2/act=1,3/nodes=11/node=x,2{first}{second}")
    };
    let beside = "/node=p,2/node=a,0/node=s,2/node=a,1/node=a,2";
    let behind = "/node=s,2/node=a,1/node=p,2/node=a,0/node=a,2";
    for (text, rows) in
        [(text(beside, behind), [[0, 0, 1, 3], [0, 2, 0, 2]]), (text(behind, beside), [[0, 2, 0, 2], [1, 0, 1, 3]])]
    {
        assert_eq!(variants(&text), Ok(2));
        assert_eq!(listed(&text), rows);
        counted(&text, 2, 1);
        let (found, starts) = best(&text, 2).unwrap();
        assert_eq!(found, Best { variant: 0, makespan: 5, count: 2, shortest: 1 });
        assert_eq!(starts[..3], [2, 0, 2]);
    }
}

/// Other activities are another session, with the same starts too.
#[test]
fn other_activities() {
    let text =
        "plan=1/res=2/acts=2/act=0,1/act=1,1/nodes=7/node=x,4/node=a,0/node=p,2/node=a,0/node=a,1/node=a,1/node=a,0";
    assert_eq!(listed(text), [[0, 0, MARK], [1, 0, 0], [2, MARK, 0]]);
    counted(text, 3, 3);
}

/// 63 variants of one session each, which is the same for all.
#[test]
fn more_variants_than_sessions() {
    let text = format!("plan=1/res=1/acts=1/act=0,1/nodes=64/node=x,63{}", "/node=a,0".repeat(63));
    assert_eq!(variants(&text), Ok(63));
    assert_eq!(listed(&text), [[0, 0]]);
    counted(&text, 1, 1);
}

#[test]
fn twelve_choices_of_two() {
    let acts = "/act=0,1".repeat(24);
    let choice = |i: u64| format!("/node=x,2/node=a,{}/node=a,{}", 2 * i, 2 * i + 1);
    let choices: String = (1..12).map(choice).collect();
    let front = format!("plan=1/res=1/acts=24{acts}");
    assert_eq!(variants(&format!("{front}/nodes=37/node=p,12{}{choices}", choice(0))), Ok(4096));
    let again = "/node=x,3/node=a,0/node=a,1/node=a,0";
    assert_eq!(variants(&format!("{front}/nodes=38/node=p,12{again}{choices}")), Err(refusal(6, 0)));
}

#[test]
fn two_contested_resources() {
    let text =
        "plan=1/res=2/acts=4/act=0,1/act=0,1/act=1,1/act=1,1/nodes=5/node=p,4/node=a,0/node=a,1/node=a,2/node=a,3";
    assert_eq!(listed(text), [[0, 0, 1, 0, 1], [0, 0, 1, 1, 0], [0, 1, 0, 0, 1], [0, 1, 0, 1, 0]]);
    assert_eq!(makespans(text), [2; 4]);
    counted(text, 4, 4);
    assert_eq!(best(text, 4).unwrap().1[..4], [0, 1, 0, 1]);
}

#[test]
fn a_free_resource_waits() {
    let text = "plan=1/res=2/acts=4/act=0,10/act=1,1/act=0,1/act=1,20/nodes=6/node=p,2/node=a,0/node=s,3/node=a,1\
        /node=a,2/node=a,3";
    assert_eq!(makespans(text), [22, 31]);
    counted(text, 2, 1);
    assert_eq!(best(text, 2).unwrap().0.makespan, 22);
}

/// An activity of one tick before, between or behind four of 20000 on its device.
#[test]
fn starts_past_65535() {
    let text = "plan=1/res=1/acts=5/act=0,1/act=0,20000/act=0,20000/act=0,20000/act=0,20000/nodes=7/node=p,2/node=a,0\
        /node=s,4/node=a,1/node=a,2/node=a,3/node=a,4";
    let rows = [
        [0, 0, 1, 20001, 40001, 60001],
        [0, 20000, 0, 20001, 40001, 60001],
        [0, 40000, 0, 20000, 40001, 60001],
        [0, 60000, 0, 20000, 40000, 60001],
        [0, 80000, 0, 20000, 40000, 60000],
    ];
    assert_eq!(listed(text), rows);
    counted(text, 5, 5);
    let (found, starts) = best(text, 5).unwrap();
    assert_eq!(found, Best { variant: 0, makespan: 80001, count: 5, shortest: 5 });
    assert_eq!(starts[..5], rows[0][1..]);
}

/// The longest makespan that a plan can have: 24 activities of 20000 ticks in sequence.
#[test]
fn longest_makespan() {
    let leaves: String = (0..24).map(|i| format!("/node=a,{i}")).collect();
    let text = format!("plan=1/res=1/acts=24{}/nodes=25/node=s,24{leaves}", "/act=0,20000".repeat(24));
    let in_turn: [u32; 24] = std::array::from_fn(|i| 20000 * i as u32);
    assert_eq!(listed(&text), [[&[0], &in_turn[..]].concat()]);
    assert_eq!(best(&text, 1), Ok((Best { variant: 0, makespan: 480_000, count: 1, shortest: 1 }, in_turn)));
}

/// CHECK of variant 0 with these starts, and the mark behind them.
fn is_feasible(text: &str, starts: &[u32]) -> bool {
    let mut timetable = [MARK; 24];
    timetable[..starts.len()].copy_from_slice(starts);
    crate::planner().check(&file(text), 0, &timetable).unwrap()
}

/// 65535 and 4294967294 are starts like others, 4294967295 is none.
#[test]
fn starts_and_the_mark() {
    for starts in
        [[0, MARK, MARK, 4, 65535], [65535, MARK, MARK, 65539, 65539], [4294967290, MARK, MARK, 4294967294, 4294967294]]
    {
        assert!(is_feasible(DOT_TEST, &starts), "{starts:?}");
    }
    for starts in [
        [65535, MARK, MARK, 65538, 65539],
        [0, 65535, 65535, 4, 4],
        [0, MARK, 4294967294, 4, 4],
        [0, MARK, MARK, 4, MARK],
        [4294967291, MARK, MARK, MARK, MARK],
    ] {
        assert!(!is_feasible(DOT_TEST, &starts), "{starts:?}");
    }
    assert!(!is_feasible(DOT_TEST, &[0, MARK, MARK, 4, 4, 65535]));
}

/// Two activities of 20000 ticks on one device. An end of 2^32 or more is past every start.
#[test]
fn ends_past_every_start() {
    let last = 4294967294;
    let text =
        |letter: char| format!("plan=1/res=1/acts=2/act=0,20000/act=0,20000/nodes=3/node={letter},2/node=a,0/node=a,1");
    for (starts, in_sequence, side_by_side) in [
        ([0, last], true, true),
        ([last, 0], false, true),
        ([last, 19998], false, true),
        ([last - 20000, last], true, true),
        ([last - 19999, last], false, false),
        ([last - 19998, last], false, false),
        ([last - 19998, 0], false, true),
        ([last - 1, last], false, false),
        ([last, last - 1], false, false),
        ([last, last], false, false),
    ] {
        assert_eq!(is_feasible(&text('s'), &starts), in_sequence, "{starts:?}");
        assert_eq!(is_feasible(&text('p'), &starts), side_by_side, "{starts:?}");
    }
}

/// Document 000, Example 2.
#[test]
fn example_2() {
    let second =
        "plan=1/res=4/acts=8/act=0,1/act=1,2/act=2,2/act=1,1/act=0,1/act=0,2/act=3,1/act=1,2/nodes=13/node=p,4\
        /node=s,2/node=p,2/node=a,0/node=a,1/node=a,2/node=s,2/node=a,3/node=a,4/node=a,5/node=s,2/node=a,6/node=a,7";
    assert_eq!(makespans(second), [5, 5, 5, 5, 5, 6, 6, 6, 7, 7, 7, 7]);
    counted(second, 12, 5);
    assert_eq!(best(second, 12).unwrap().0.makespan, 5);
}

const TWO_ARM_BENCH: &str = "plan=2/res=2/cap=2/cap=1/acts=5/act=4,1,0/act=3,1,1/act=2,2,0/act=5,1,0/act=2,0,1/nodes=7\
    /node=p,4/node=s,2/node=a,0/node=a,2/node=a,1/node=a,3/node=a,4";

/// Two arms and a camera.
#[test]
fn two_arm_bench() {
    let rows = [
        [0, 0, 0, 4, 6, 3],
        [0, 0, 0, 8, 3, 3],
        [0, 0, 2, 5, 7, 0],
        [0, 0, 2, 9, 4, 0],
        [0, 0, 4, 7, 0, 0],
        [0, 0, 6, 4, 6, 0],
        [0, 0, 7, 5, 0, 0],
        [0, 3, 0, 7, 0, 3],
        [0, 5, 2, 9, 0, 0],
    ];
    assert_eq!(listed(TWO_ARM_BENCH), rows);
    counted(TWO_ARM_BENCH, 9, 2);
    let (found, starts) = best(TWO_ARM_BENCH, 9).unwrap();
    assert_eq!(found, Best { variant: 0, makespan: 9, count: 9, shortest: 2 });
    assert_eq!(starts[..5], [0, 4, 7, 0, 0]);
}

/// A plan of edition 2 with some activities side by side: capacities and activities.
fn side_by_side(capacities: &[u64], activities: &[&str]) -> String {
    let capacity_lines: String = capacities.iter().map(|capacity| format!("/cap={capacity}")).collect();
    let activity_lines: String = activities.iter().map(|activity| format!("/act={activity}")).collect();
    let count = activities.len();
    let leaves: String = (0..count).map(|i| format!("/node=a,{i}")).collect();
    let head = format!("plan=2/res={}{capacity_lines}/acts={count}{activity_lines}", capacities.len());
    format!("{head}/nodes={}/node=p,{count}{leaves}", count + 1)
}

#[test]
fn two_arms() {
    let text = side_by_side(&[2], &["3,1", "2,1", "2,1", "1,1"]);
    assert_eq!(makespans(&text), [4, 4, 4, 4, 5, 5, 5, 5, 5, 5, 5]);
    counted(&text, 11, 4);
    assert_eq!(best(&text, 11).unwrap().1[..4], [0, 0, 2, 3]);
}

#[test]
fn arm_and_camera() {
    let text = side_by_side(&[2, 1], &["2,1,1", "3,0,1", "1,1,0", "2,2,0"]);
    assert_eq!(listed(&text), [[0, 0, 2, 0, 2], [0, 2, 4, 2, 0], [0, 3, 0, 0, 1], [0, 3, 0, 2, 0]]);
    counted(&text, 4, 3);
}

#[test]
fn both_arms() {
    let text = side_by_side(&[2], &["3,2", "2,1", "4,1"]);
    assert_eq!(listed(&text), [[0, 0, 3, 3], [0, 2, 0, 5], [0, 4, 0, 0]]);
    counted(&text, 3, 2);
}

#[test]
fn shared_three_ways() {
    let text = side_by_side(&[3], &["2,1", "3,1", "1,1", "2,2"]);
    assert_eq!(makespans(&text), [4, 4, 4, 5, 5, 5, 5]);
    counted(&text, 7, 3);
    assert_eq!(best(&text, 7).unwrap().1[..4], [0, 0, 0, 2]);
}

/// The load of 7 of 2 arms is 4 when rounded up, and no session is shorter.
#[test]
fn load_rounded_up() {
    let text = side_by_side(&[2], &["3,1", "2,1", "2,1"]);
    counted(&text, 3, 2);
    assert_eq!(best(&text, 3).unwrap().0.makespan, 4);
}

/// An activity without a device starts at once, and with no device used nothing waits.
#[test]
fn without_device() {
    let text = side_by_side(&[1], &["2,1", "3,1", "4,0"]);
    assert_eq!(listed(&text), [[0, 0, 2, 0], [0, 3, 0, 0]]);
    counted(&text, 2, 2);
    assert_eq!(listed(&side_by_side(&[1, 15], &["2,0,0", "3,0,0", "4,0,0"])), [[0, 0, 0, 0]]);
}

#[test]
fn dot_test_in_edition_2() {
    let text = DOT_TEST
        .replace("plan=1/res=3", "plan=2/res=3/cap=1/cap=1/cap=1")
        .replace("act=0,4", "act=4,1,0,0")
        .replace("act=1,2", "act=2,0,1,0")
        .replace("act=1,3", "act=3,0,1,0")
        .replace("act=2,5", "act=5,0,0,1")
        .replace("act=1,6", "act=6,0,1,0");
    assert_eq!(listed(&text), listed(DOT_TEST));
    assert_eq!(best(&text, 3), best(DOT_TEST, 3));
}

#[test]
fn units() {
    let of =
        |capacity: &str, act: &str| variants(&format!("plan=2/res=1/cap={capacity}/acts=1/act={act}/nodes=1/node=a,0"));
    assert_eq!(of("15", "1,15"), Ok(1));
    assert_eq!(of("1", "1,0"), Ok(1));
    assert_eq!(of("14", "1,15"), Err(refusal(11, 5)));
    assert_eq!(of("1", "1,2"), Err(refusal(11, 5)));
    assert_eq!(of("15", "1,16"), Err(refusal(3, 5)));
    assert_eq!(of("1", "0,2"), Err(refusal(3, 5)));
    assert_eq!(of("1", "1,02"), Err(refusal(2, 5)));
    assert_eq!(of("1", "1"), Err(refusal(2, 5)));
    assert_eq!(of("1", "1,1,1"), Err(refusal(2, 5)));
    assert_eq!(of("0", "1,0"), Err(refusal(3, 3)));
    assert_eq!(of("16", "1,0"), Err(refusal(3, 3)));
    assert_eq!(of("1/cap=1", "1,0"), Err(refusal(2, 4)));
}

/// A written variant keeps its edition and its capacities.
#[test]
fn written_in_edition_2() {
    let text = "plan=2/res=2/cap=2/cap=15/acts=3/act=1,2,0/act=20000,0,15/act=3,1,1/nodes=7/node=s,2/node=a,0/node=x,2\
        /node=s,2/node=a,1/node=a,2/node=a,1";
    let kept = "plan=2/res=2/cap=2/cap=15/acts=3/act=1,2,0/act=20000,0,15/act=3,1,1";
    for (variant, nodes) in
        [(0, "/nodes=4/node=s,3/node=a,0/node=a,1/node=a,2"), (1, "/nodes=3/node=s,2/node=a,0/node=a,1")]
    {
        let (mut area, written) = ([0; 2175], file(&format!("{kept}{nodes}")));
        assert_eq!(crate::planner().write(&file(text), variant, &mut area), Ok(written.len() as u64));
        assert_eq!(area[..written.len()], written);
        assert_eq!(crate::planner().write(&written, 0, &mut area), Ok(written.len() as u64));
        assert_eq!(area[..written.len()], written);
    }
}

/// 983 bytes are the most for edition 1 and 2175 for any: up to there a file is judged by its lines.
#[test]
fn longest_files() {
    let nodes = format!("/nodes=64/node=x,63{}", "/node=a,23".repeat(63));
    let one = format!("plan=1/res=16/acts=24{}{nodes}", "/act=15,20000".repeat(24));
    let activity = format!("/act=20000{}", ",15".repeat(16));
    let two = format!("plan=2/res=16{}/acts=24{}{nodes}", "/cap=15".repeat(16), activity.repeat(24));
    assert_eq!((file(&one).len(), file(&two).len()), (983, 2175));
    assert_eq!((variants(&one), variants(&two)), (Ok(63), Ok(63)));
    counted(&two, 1, 1);
    assert_eq!(variants(&(two + "/")), Err(refusal(1, 0)));
    assert_eq!(variants(&(one.clone() + "/")), Err(refusal(2, 93)));
    assert_eq!(variants(&(one.clone() + &"/".repeat(1192))), Err(refusal(2, 93)));
    assert_eq!(variants(&(one + &"/".repeat(1193))), Err(refusal(1, 0)));
}

/// Three activities of 20000 ticks on two arms, with ends past every start.
#[test]
fn units_left_past_every_start() {
    let last = 4294967294;
    let text = side_by_side(&[2], &["20000,1", "20000,1", "20000,1"]);
    for (starts, feasible) in [
        ([last, last, 0], true),
        ([last, last, last], false),
        ([last, last - 1, last - 2], false),
        ([last, last, last - 19999], false),
        ([last, last, last - 20000], true),
        ([last - 20000, last, last - 1], true),
        ([last - 20000, last - 1, last - 1], false),
        ([last - 20000, last - 20001, last - 1], true),
        ([last - 19998, last - 20002, last - 2], true),
        ([last - 19998, last - 20001, last - 2], false),
    ] {
        assert_eq!(is_feasible(&text, &starts), feasible, "{starts:?}");
    }
}

/// Every call on each file.
#[test]
fn files() {
    let folder = concat!(env!("CARGO_MANIFEST_DIR"), "/../../campaigns");
    let mut seen = 0;
    for entry in std::fs::read_dir(folder).unwrap() {
        let path = entry.unwrap().path();
        if path.extension().is_some_and(|extension| extension == "plan") {
            let plan = std::fs::read(&path).unwrap();
            compare(&crate::planner(), &plan, &mut Random(seen))
                .unwrap_or_else(|difference| panic!("{}: {difference}", path.display()));
            seen += 1;
        }
    }
    assert!(seen > 30);
}
