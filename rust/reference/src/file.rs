//! The plan file of either edition: its text read, with refusals 1 to 6, 10 and 11, and written.

use crate::refusal;
use crate::term::{Kind, Term};
use calls::Refusal;
use std::ops::RangeInclusive;

/// The longest file of any edition.
pub const LONGEST: usize = 2175;
pub const MOST_VARIANTS: u64 = 4096;
const DURATIONS: RangeInclusive<u64> = 1..=20_000;

#[derive(Clone, Debug, PartialEq, Eq)]
pub struct Activity {
    pub duration: u64,
    /// How many units it holds of each resource.
    pub units: Vec<u64>,
}

impl Activity {
    /// One unit of its own resource and none of the others, as in `plan=1`.
    pub fn on(resource: u64, resources: u64, duration: u64) -> Activity {
        Activity { duration, units: (0..resources).map(|r| u64::from(r == resource)).collect() }
    }
}

#[derive(Clone, Debug, PartialEq, Eq)]
pub struct Plan {
    pub edition: u64,
    /// The units of each resource; in `plan=1` each has one.
    pub capacities: Vec<u64>,
    pub activities: Vec<Activity>,
    pub term: Term,
}

fn fields_of<'a>(line: &'a [u8], key: &str) -> Option<Vec<&'a str>> {
    let line = std::str::from_utf8(line).ok()?.strip_suffix('\n')?;
    let fields = line.strip_prefix(key)?.strip_prefix('=')?;
    Some(fields.split(',').collect())
}

/// The lines of a file, taken one by one.
struct Lines<'a> {
    pieces: std::slice::SplitInclusive<'a, u8, fn(&u8) -> bool>,
    taken: u64,
}

impl<'a> Lines<'a> {
    fn new(bytes: &'a [u8]) -> Self {
        Lines { pieces: bytes.split_inclusive(|&b| b == 10), taken: 0 }
    }

    /// The fields of the next line, so many of them, which are behind `key=` and parted by commas.
    fn fields(&mut self, key: &str, count: usize) -> Result<Vec<&'a str>, Refusal> {
        self.taken += 1;
        let piece = self.pieces.next().unwrap_or_default();
        fields_of(piece, key).filter(|fields| fields.len() == count).ok_or(refusal(2, self.taken))
    }

    /// The values of the next line, so many of them.
    fn values(&mut self, key: &str, count: usize) -> Result<Vec<u64>, Refusal> {
        self.fields(key, count)?.iter().map(|field| self.value(field)).collect()
    }

    fn value(&self, field: &str) -> Result<u64, Refusal> {
        let formed = (1..=5).contains(&field.len())
            && field.bytes().all(|b| b.is_ascii_digit())
            && (field == "0" || !field.starts_with('0'));
        if formed {
            Ok(field.parse().unwrap())
        } else {
            Err(refusal(2, self.taken))
        }
    }

    fn in_range(&self, value: u64, range: RangeInclusive<u64>) -> Result<u64, Refusal> {
        if range.contains(&value) {
            Ok(value)
        } else {
            Err(refusal(3, self.taken))
        }
    }

    /// The next line, with one value.
    fn number(&mut self, key: &str, range: RangeInclusive<u64>) -> Result<u64, Refusal> {
        let values = self.values(key, 1)?;
        self.in_range(values[0], range)
    }

    /// `act=r,d`
    fn activity_1(&mut self, resources: u64) -> Result<Activity, Refusal> {
        let values = self.values("act", 2)?;
        let resource = self.in_range(values[0], 0..=resources - 1)?;
        Ok(Activity::on(resource, resources, self.in_range(values[1], DURATIONS)?))
    }

    /// `act=d,u0,..`
    fn activity_2(&mut self, capacities: &[u64]) -> Result<Activity, Refusal> {
        let mut units = self.values("act", 1 + capacities.len())?;
        let duration = self.in_range(units.remove(0), DURATIONS)?;
        for &count in &units {
            self.in_range(count, 0..=15)?;
        }
        if units.iter().zip(capacities).any(|(count, capacity)| count > capacity) {
            return Err(refusal(11, self.taken));
        }
        Ok(Activity { duration, units })
    }

    /// The units of each resource, and the activities.
    fn activities(&mut self, edition: u64, resources: u64) -> Result<(Vec<u64>, Vec<Activity>), Refusal> {
        let mut capacities = vec![1; resources as usize];
        if edition == 2 {
            for capacity in &mut capacities {
                *capacity = self.number("cap", 1..=15)?;
            }
        }
        let mut activities = vec![];
        for _ in 0..self.number("acts", 1..=24)? {
            activities.push(match edition {
                1 => self.activity_1(resources)?,
                _ => self.activity_2(&capacities)?,
            });
        }
        Ok((capacities, activities))
    }

    fn node(&mut self, activities: u64) -> Result<(char, u64), Refusal> {
        let fields = self.fields("node", 2)?;
        let letter = fields[0];
        if !["a", "s", "p", "x"].contains(&letter) {
            return Err(refusal(2, self.taken));
        }
        let value = self.value(fields[1])?;
        let range = if letter == "a" { 0..=activities - 1 } else { 1..=63 };
        let value = self.in_range(value, range)?;
        if letter != "a" && value == 1 {
            return Err(refusal(10, self.taken));
        }
        Ok((letter.chars().next().unwrap(), value))
    }

    fn end(&mut self) -> Result<(), Refusal> {
        match self.pieces.next() {
            None => Ok(()),
            Some(_) => Err(refusal(2, self.taken + 1)),
        }
    }
}

/// The term that the nodes are, if they are one whole term: the nodes wanted are one at first, each node is one less, a
/// group wants its children, and none is wanted exactly behind the last.
pub fn whole_term(nodes: &[(char, u64)]) -> Option<Term> {
    let mut wanted = 1;
    for &(letter, number) in nodes {
        if wanted == 0 {
            return None;
        }
        wanted = wanted - 1 + if letter == 'a' { 0 } else { number };
    }
    (wanted == 0).then(|| build(&mut nodes.iter()))
}

fn build(nodes: &mut std::slice::Iter<(char, u64)>) -> Term {
    let &(letter, number) = nodes.next().unwrap();
    let kind = match letter {
        'a' => return Term::Activity(number as usize),
        's' => Kind::Seq,
        'p' => Kind::Pll,
        _ => Kind::Xor,
    };
    Term::Group(kind, (0..number).map(|_| build(nodes)).collect())
}

pub fn parse(bytes: &[u8]) -> Result<Plan, Refusal> {
    if bytes.is_empty() || bytes.len() > LONGEST {
        return Err(refusal(1, 0));
    }
    let mut lines = Lines::new(bytes);
    let edition = lines.number("plan", 1..=2)?;
    let resources = lines.number("res", 1..=16)?;
    let (capacities, activities) = lines.activities(edition, resources)?;
    let size = lines.number("nodes", 1..=64)?;
    let nodes: Vec<_> = (0..size).map(|_| lines.node(activities.len() as u64)).collect::<Result<_, _>>()?;
    lines.end()?;
    let term = whole_term(&nodes).ok_or(refusal(4, 0))?;
    if term.has_activity_twice() {
        return Err(refusal(5, 0));
    }
    if term.variant_count() > MOST_VARIANTS {
        return Err(refusal(6, 0));
    }
    Ok(Plan { edition, capacities, activities, term })
}

impl Plan {
    fn activity_line(&self, activity: &Activity) -> String {
        if self.edition == 1 {
            let resource = activity.units.iter().position(|&count| count == 1).unwrap();
            return format!("act={resource},{}\n", activity.duration);
        }
        let counts: String = activity.units.iter().map(|count| format!(",{count}")).collect();
        format!("act={}{counts}\n", activity.duration)
    }

    /// The plan in its edition with another term.
    pub fn text_of(&self, term: &Term) -> Vec<u8> {
        let mut text = format!("plan={}\nres={}\n", self.edition, self.capacities.len());
        if self.edition == 2 {
            self.capacities.iter().for_each(|capacity| text += &format!("cap={capacity}\n"));
        }
        text += &format!("acts={}\n", self.activities.len());
        self.activities.iter().for_each(|activity| text += &self.activity_line(activity));
        let nodes = term.nodes();
        text += &format!("nodes={}\n", nodes.len());
        nodes.iter().for_each(|(letter, number)| text += &format!("node={letter},{number}\n"));
        text.into_bytes()
    }

    pub fn text(&self) -> Vec<u8> {
        self.text_of(&self.term)
    }
}
