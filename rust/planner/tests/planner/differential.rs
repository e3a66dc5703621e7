//! Many plan files, each seeded by its number.

use crate::compare::{compare, Sessions};
use crate::plans::plan_file;
use reference::random::Random;
use std::collections::BTreeMap;

/// `PLANS` sets another number of plans, `SEED` another first one.
fn setting(name: &str, otherwise: u64) -> u64 {
    std::env::var(name).map_or(otherwise, |value| value.parse().unwrap())
}

/// How many plans there were of each sort.
type Tally = BTreeMap<String, u64>;

fn run(numbers: impl Iterator<Item = u64>) -> Tally {
    let planner = crate::planner();
    let mut tally = Tally::new();
    for number in numbers {
        let mut random = Random(number.wrapping_mul(0x2545_f491_4f6c_dd1d));
        let (kind, file) = plan_file(&mut random);
        let seen = compare(&planner, &file, &mut random)
            .unwrap_or_else(|difference| panic!("plan {number} ({kind}): {difference}\n\"{}\"", file.escape_ascii()));
        let mut add = |name: &str, n: u64| *tally.entry(name.to_string()).or_default() += n;
        add("all", 1);
        add(&format!("kind: {kind}"), 1);
        if seen.refused != 0 {
            add(&format!("refused {}", seen.refused), 1);
            continue;
        }
        add("accepted", 1);
        add(&format!("accepted, edition {}", seen.edition), 1);
        add(&format!("accepted, the longest of edition {}", seen.edition), u64::from(is_longest(seen.edition, &file)));
        match seen.sessions {
            Sessions::OverCap => add("accepted, more sessions than were to be listed", 1),
            Sessions::Open => add("accepted, sessions left open", 1),
            Sessions::Listed(listed) => {
                add("accepted, sessions listed", 1);
                add("accepted, sessions listed, 4096 variants", u64::from(seen.variants == 4096));
                add("accepted, sessions listed, several shortest but not all", u64::from(listed.tied));
                add("accepted, sessions listed, fewer than pairs", u64::from(listed.sessions < listed.pairs));
                add("accepted, sessions listed, part of a variant's under lower ones", u64::from(listed.mixed));
                add("accepted, sessions listed, a start past 65535", u64::from(listed.late));
                add("accepted, sessions listed, three at once on a device", u64::from(listed.three));
                add(&format!("accepted, sessions listed, edition {}", seen.edition), 1);
                add("sessions", listed.sessions);
                add("pairs of a variant and a session", listed.pairs);
            }
        }
    }
    tally
}

fn is_longest(edition: u64, file: &[u8]) -> bool {
    file.len() == if edition == 1 { 983 } else { 2175 }
}

#[test]
fn differential() {
    let (plans, seed) = (setting("PLANS", 120_000), setting("SEED", 0));
    let threads = std::thread::available_parallelism().map_or(1, |n| n.get() as u64);
    let mut all = Tally::new();
    std::thread::scope(|scope| {
        let share = |thread| move || run((seed + thread..seed + plans).step_by(threads as usize));
        let runs: Vec<_> = (0..threads).map(|thread| scope.spawn(share(thread))).collect();
        for (name, n) in runs.into_iter().flat_map(|run| run.join().unwrap()) {
            *all.entry(name).or_default() += n;
        }
    });
    for (name, n) in &all {
        println!("{n:>8} {name}");
    }
    if plans >= 100_000 {
        assert!([1, 2, 3, 4, 5, 6, 10, 11].iter().all(|number| all[&format!("refused {number}")] > plans / 200));
        assert!(all["accepted, sessions listed"] > plans / 4);
        assert!(all["accepted, sessions left open"] < plans / 100);
        for edition in [1, 2] {
            assert!(all[&format!("accepted, sessions listed, edition {edition}")] > plans / 10);
            assert!(all[&format!("accepted, the longest of edition {edition}")] > 100);
        }
        assert!(all["accepted, sessions listed, 4096 variants"] > 10);
        assert!(all["accepted, sessions listed, several shortest but not all"] > plans / 20);
        assert!(all["accepted, sessions listed, fewer than pairs"] > plans / 10);
        assert!(all["accepted, sessions listed, part of a variant's under lower ones"] > plans / 50);
        assert!(all["accepted, sessions listed, a start past 65535"] > plans / 100);
        assert!(all["accepted, sessions listed, three at once on a device"] > plans / 100);
    }
}
