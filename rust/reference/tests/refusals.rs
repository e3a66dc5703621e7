//! The table of refusals, both sides of each limit.

use calls::{Planner, Refusal};
use reference::{refusal, Reference};

fn read(file: &[u8]) -> Result<u64, Refusal> {
    Reference.read(file).map(|size| size.variants)
}

/// Of a text whose lines are shown with `/`.
fn of(text: &str) -> Result<u64, Refusal> {
    read((text.replace('/', "\n") + "\n").as_bytes())
}

const SMALL: &str = "plan=1/res=2/acts=2/act=0,1/act=1,20000/nodes=3/node=s,2/node=a,0/node=a,1";

/// `SMALL` with one part replaced.
fn with(part: &str, by: &str) -> Result<u64, Refusal> {
    assert!(SMALL.contains(part));
    of(&SMALL.replace(part, by))
}

const UNITS: &str = "plan=2/res=3/cap=1/cap=2/cap=15/acts=2/act=1,0,0,0/act=20000,1,2,15/nodes=3/node=s,2/node=a,0\
    /node=a,1";

/// `UNITS` with one part replaced.
fn with_units(part: &str, by: &str) -> Result<u64, Refusal> {
    assert!(UNITS.contains(part));
    of(&UNITS.replace(part, by))
}

/// The longest file but for its head, and its length with it.
fn longest(head: &str, activity: &str) -> String {
    format!("{head}/acts=24{}/nodes=64/node=x,63{}", activity.repeat(24), "/node=a,23".repeat(63))
}

#[test]
fn length() {
    let one = longest("plan=1/res=16", "/act=15,20000");
    let head = "plan=2/res=16".to_string() + &"/cap=15".repeat(16);
    let activity = "/act=20000".to_string() + &",15".repeat(16);
    let two = longest(&head, &activity);
    assert_eq!((one.len() + 1, two.len() + 1), (983, 2175));
    assert_eq!((of(&one), of(&two)), (Ok(63), Ok(63)));
    assert_eq!(of(&(two + "/")), Err(refusal(1, 0)));
    assert_eq!(read(b""), Err(refusal(1, 0)));
    assert_eq!(read(&[0; 2176]), Err(refusal(1, 0)));
    assert_eq!(read(&[0; 2175]), Err(refusal(2, 1)));
    // a file of edition 1 is judged by its lines up to the same length
    assert_eq!(of(&(one.clone() + "/")), Err(refusal(2, 93)));
    assert_eq!(read((one.replace('/', "\n") + &"\n".repeat(1193)).as_bytes()), Err(refusal(2, 93)));
    assert_eq!(read((one.replace('/', "\n") + &"\n".repeat(1194)).as_bytes()), Err(refusal(1, 0)));
    assert_eq!(of(&(one.replace(",20000", ",20001") + "/")), Err(refusal(3, 4)));
}

#[test]
fn units() {
    assert_eq!(of(UNITS), Ok(1));
    for (part, by, number, line) in [
        // capacities
        ("cap=1/", "cap=0/", 3, 3),
        ("cap=2/", "cap=16/", 3, 4),
        ("cap=15/", "cap=015/", 2, 5),
        ("cap=15/", "cap=1,5/", 2, 5),
        ("cap=15/", "", 2, 5),
        ("cap=15/", "cap=15/cap=15/", 2, 6),
        ("cap=15/", "Cap=15/", 2, 5),
        ("cap=1/cap=2", "acts=2/cap=2", 2, 3),
        // as many counts as devices
        ("act=1,0,0,0", "act=1,0,0", 2, 7),
        ("act=1,0,0,0", "act=1,0,0,0,0", 2, 7),
        ("act=1,0,0,0", "act=1,0,0,", 2, 7),
        ("act=1,0,0,0", "act=1,0,0,0,", 2, 7),
        ("act=1,0,0,0", "act=1", 2, 7),
        ("act=1,0,0,0", "act=1,0,,0", 2, 7),
        ("act=1,0,0,0", "act=1,0,00,0", 2, 7),
        ("act=1,0,0,0", "act=1,0,0,01", 2, 7),
        ("act=1,0,0,0", "act=01,0,0,0", 2, 7),
        ("act=1,0,0,0", "act=0,0,0,0", 3, 7),
        ("act=20000,1,2,15", "act=20001,1,2,15", 3, 8),
        ("act=20000,1,2,15", "act=20000,1,2,16", 3, 8),
        ("act=20000,1,2,15", "act=20000,16,2,15", 3, 8),
        ("act=20000,1,2,15", "act=20000,2,2,15", 11, 8),
        ("act=20000,1,2,15", "act=20000,1,3,15", 11, 8),
        ("act=20000,1,2,15", "act=20000,15,2,15", 11, 8),
        // 2 before 3 before 11
        ("act=20000,1,2,15", "act=20000,2,2,16", 3, 8),
        ("act=20000,1,2,15", "act=0,2,2,15", 3, 8),
        ("act=20000,1,2,15", "act=20000,2,16,015", 2, 8),
        ("act=20000,1,2,15", "act=20000,2,2", 2, 8),
        // the first line goes first
        ("act=1,0,0,0/act=20000,1", "act=1,2,0,0/act=20000,16", 11, 7),
        ("act=1,0,0,0/act=20000,1", "act=1,0,3,0/act=020000,1", 11, 7),
        ("act=20000,1,2,15/nodes=3/node=s,2", "act=20000,2,2,15/nodes=3/node=s,1", 11, 8),
        ("nodes=3/node=s,2", "nodes=3/node=s,1", 10, 10),
        // editions
        ("plan=2", "plan=1", 2, 3),
        ("plan=2", "plan=3", 3, 1),
        ("plan=2", "plan=0", 3, 1),
        ("plan=2", "plan=22", 3, 1),
    ] {
        assert_eq!(with_units(part, by), Err(refusal(number, line)), "{by:?} for {part:?}");
    }
    assert_eq!(with_units("act=1,0,0,0", "act=1,1,2,15"), Ok(1));
    assert_eq!(with("plan=1", "plan=2"), Err(refusal(2, 3)));
}

#[test]
fn form() {
    assert_eq!(of(SMALL), Ok(1));
    for (part, by, line) in [
        ("plan=1", "plan=01", 1),
        ("plan=1", "plan=", 1),
        ("plan=1", "plan=x", 1),
        ("plan=1", "Plan=1", 1),
        ("plan=1", "plan=1\r", 1),
        ("plan=1", " plan=1", 1),
        ("plan=1", "plan=+1", 1),
        ("plan=1", "plan=1/", 2),
        ("res=2", "res=2,1", 2),
        ("res=2", "res=000002", 2),
        ("res=2", "res=100000", 2),
        ("res=2", "res=2\0", 2),
        ("res=2/", "", 2),
        ("act=0,1", "act=0,01", 4),
        ("act=0,1", "act=00,1", 4),
        ("act=0,1", "act=0", 4),
        ("act=0,1", "act=0,1,", 4),
        ("act=0,1", "act=9,01", 4),
        ("acts=2", "acts=3", 6),
        ("acts=2", "acts=1", 5),
        ("node=s,2", "node=S,2", 7),
        ("node=s,2", "node=b,2", 7),
        ("node=s,2", "node=s2", 7),
        ("node=s,2", "node=ss,2", 7),
        ("nodes=3", "nodes=4", 10),
        ("nodes=3", "nodes=2", 9),
    ] {
        assert_eq!(with(part, by), Err(refusal(2, line)), "{by:?} for {part:?}");
    }
    let text = SMALL.replace('/', "\n");
    assert_eq!(read(text.as_bytes()), Err(refusal(2, 9)));
    assert_eq!(read((text.clone() + "\n\n").as_bytes()), Err(refusal(2, 10)));
    assert_eq!(read((text + "\nx").as_bytes()), Err(refusal(2, 10)));
}

#[test]
fn range() {
    for (part, by, line) in [
        ("plan=1", "plan=3", 1),
        ("plan=1", "plan=0", 1),
        ("res=2", "res=0", 2),
        ("res=2", "res=17", 2),
        ("res=2", "res=99999", 2),
        ("acts=2", "acts=0", 3),
        ("acts=2", "acts=25", 3),
        ("act=0,1", "act=2,1", 4),
        ("act=0,1", "act=0,0", 4),
        ("act=1,20000", "act=1,20001", 5),
        ("nodes=3", "nodes=0", 6),
        ("nodes=3", "nodes=65", 6),
        ("node=s,2", "node=s,0", 7),
        ("node=s,2", "node=p,64", 7),
        ("node=s,2", "node=x,0", 7),
        ("node=a,1", "node=a,2", 9),
        // a line before one that is ill formed
        ("act=0,1/act=1,20000", "act=2,1/act=1,02000", 4),
    ] {
        assert_eq!(with(part, by), Err(refusal(3, line)), "{by:?} for {part:?}");
    }
    assert_eq!(with("res=2", "res=16"), Ok(1));
    assert_eq!(with("act=1,20000", "act=1,2001"), Ok(1));
}

#[test]
fn groups_of_one() {
    for (part, by, line) in [
        ("node=s,2", "node=s,1", 7),
        ("node=s,2", "node=p,1", 7),
        ("node=s,2", "node=x,1", 7),
        ("nodes=3/node=s,2/node=a,0", "nodes=4/node=s,2/node=a,0/node=x,1", 9),
        // whatever is wrong with the term or with a later line
        ("nodes=3/node=s,2/node=a,0/node=a,1", "nodes=1/node=s,1", 7),
        ("node=s,2/node=a,0/node=a,1", "node=s,1/node=a,2/node=b,1", 7),
    ] {
        assert_eq!(with(part, by), Err(refusal(10, line)), "{by:?} for {part:?}");
    }
    // an earlier line goes first
    assert_eq!(with("act=0,1/act=1,20000/nodes=3/node=s,2", "act=0,01/act=1,1/nodes=3/node=s,1"), Err(refusal(2, 4)));
    assert_eq!(with("act=1,20000/nodes=3/node=s,2", "act=1,20001/nodes=3/node=s,1"), Err(refusal(3, 5)));
    // activity 1 is no group
    assert_eq!(with("nodes=3/node=s,2/node=a,0/node=a,1", "nodes=1/node=a,1"), Ok(1));
}

#[test]
fn terms() {
    for by in ["node=s,3", "node=a,0", "node=p,63"] {
        assert_eq!(with("node=s,2", by), Err(refusal(4, 0)), "{by}");
    }
    assert_eq!(with("nodes=3/node=s,2/node=a,0/node=a,1", "nodes=1/node=s,2"), Err(refusal(4, 0)));
    assert_eq!(with("node=a,1", "node=a,0"), Err(refusal(5, 0)));
    assert_eq!(with("node=s,2/node=a,0/node=a,1", "node=x,2/node=a,0/node=a,0"), Ok(2));
    // 64 nodes: 31 groups, each in the one before it
    let groups = "/node=x,3/node=a,0/node=a,0".to_string() + &"/node=x,2/node=a,0".repeat(30) + "/node=a,1";
    assert_eq!(with("nodes=3/node=s,2/node=a,0/node=a,1", &format!("nodes=64{groups}")), Ok(33));
    // an activity twice comes before too many variants
    let choices = "/node=x,4/node=a,0/node=a,1/node=a,0/node=a,1".repeat(12);
    let twice = format!("nodes=61/node=p,12{choices}");
    assert_eq!(with("nodes=3/node=s,2/node=a,0/node=a,1", &twice), Err(refusal(5, 0)));
}
