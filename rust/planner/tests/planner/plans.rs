//! Plan files of every kind, accepted and damaged.

use reference::random::Random;

type Node = (char, u64);

/// The values of a plan file, whether or not they make a plan.
#[derive(Clone)]
struct Draft {
    edition: u64,
    capacities: Vec<u64>,
    /// Durations, and the units of each resource.
    activities: Vec<(u64, Vec<u64>)>,
    nodes: Vec<Node>,
}

impl Draft {
    fn head(&self) -> String {
        let head = format!("plan={}\nres={}\n", self.edition, self.capacities.len());
        let capacity_lines: String = self.capacities.iter().map(|capacity| format!("cap={capacity}\n")).collect();
        head + if self.edition == 1 { "" } else { &capacity_lines }
    }

    fn activity_line(&self, (duration, units): &(u64, Vec<u64>)) -> String {
        if self.edition == 1 {
            let resource = units.iter().position(|&count| count > 0).unwrap();
            return format!("act={resource},{duration}\n");
        }
        let counts: String = units.iter().map(|count| format!(",{count}")).collect();
        format!("act={duration}{counts}\n")
    }

    fn text(&self) -> Vec<u8> {
        let mut text = self.head() + &format!("acts={}\n", self.activities.len());
        for activity in &self.activities {
            text += &self.activity_line(activity);
        }
        text += &format!("nodes={}\n", self.nodes.len());
        for (letter, number) in &self.nodes {
            text += &format!("node={letter},{number}\n");
        }
        text.into_bytes()
    }
}

/// A plan file and the name of its kind.
pub fn plan_file(random: &mut Random) -> (&'static str, Vec<u8>) {
    let (kind, text) = match random.below(100) {
        0..=15 => ("tiny", tiny(random).text()),
        16..=28 => ("middling", middling(random).text()),
        29..=49 => ("shared activities", shared(random).text()),
        50..=57 => ("large", large(random).text()),
        58..=61 => ("groups of one", groups_of_one(random).text()),
        62..=63 => ("many variants", many_variants(random).text()),
        64..=66 => ("too many variants", too_many_variants(random).text()),
        67..=70 => ("longest", longest(random)),
        71..=75 => ("activity twice", twice(random).text()),
        76..=81 => ("loose nodes", loose_nodes(random).text()),
        82..=86 => ("values out of range", out_of_range(random)),
        87..=92 => ("units out of place", units_out_of_place(random)),
        93..=95 => ("any lines", any_lines(random)),
        _ => ("any bytes", any_bytes(random)),
    };
    if random.once_in(4) {
        ("damaged", damaged(random, text))
    } else {
        (kind, text)
    }
}

/// An edition, and the units of each resource: few as a rule.
fn devices(random: &mut Random, resources: u64) -> (u64, Vec<u64>) {
    let one_unit = vec![1; resources as usize];
    match random.below(8) {
        0..=2 => (1, one_unit),
        3 => (2, one_unit),
        _ => {
            let few = random.pick(&[&[1, 2][..], &[2, 2, 3], &[3, 4, 5], &[1, 2, 3, 7, 14, 15]]);
            (2, (0..resources).map(|_| random.pick(few)).collect())
        }
    }
}

/// One unit of one resource.
fn on(resource: u64, resources: usize) -> Vec<u64> {
    (0..resources as u64).map(|r| u64::from(r == resource)).collect()
}

/// Units of any resources, of none, or of all.
fn units(random: &mut Random, capacities: &[u64], without: u64) -> Vec<u64> {
    let all = random.once_in(8);
    let count = |&capacity: &u64| match random.below(without) {
        0 => random.between(1, capacity),
        1 => 1,
        _ if all => capacity,
        _ => 0,
    };
    capacities.iter().map(count).collect()
}

fn activities(random: &mut Random, count: u64, edition: u64, capacities: &[u64], longest: u64) -> Vec<(u64, Vec<u64>)> {
    let resources = capacities.len();
    let one_unit = edition == 1 || random.once_in(6);
    let without = random.between(2, 2 + resources as u64);
    let mut activity = || {
        let duration = random.between(1, longest);
        let units =
            if one_unit { on(random.below(resources as u64), resources) } else { units(random, capacities, without) };
        (duration, units)
    };
    (0..count).map(|_| activity()).collect()
}

fn shuffled(random: &mut Random, mut numbers: Vec<u64>) -> Vec<u64> {
    for i in (1..numbers.len()).rev() {
        numbers.swap(i, random.below(i as u64 + 1) as usize);
    }
    numbers
}

/// The nodes of a term that has no activity twice in a variant, no more than `room`.
fn term(random: &mut Random, activities: &[u64], room: u64, letters: &[char]) -> Vec<Node> {
    let letter = random.pick(letters);
    let most = if letter == 'x' { 4 } else { activities.len() as u64 }.min(room.saturating_sub(1));
    if most < 2 || (activities.len() == 1 && !random.once_in(6)) {
        return vec![('a', random.pick(activities))];
    }
    let children = random.between(2, most);
    let mut nodes = vec![(letter, children)];
    let mut from = 0;
    for child in 0..children {
        let room = (room - nodes.len() as u64) / (children - child);
        let part = if letter == 'x' {
            let a = random.index(activities.len());
            &activities[a..=random.between(a as u64, activities.len() as u64 - 1) as usize]
        } else {
            let last = activities.len() - (children - child) as usize;
            let to = if child + 1 == children { last } else { random.between(from as u64, last as u64) as usize };
            let part = &activities[from..=to];
            from = to + 1;
            part
        };
        nodes.extend(term(random, part, room, letters));
    }
    nodes
}

fn draft(random: &mut Random, count: u64, resources: u64, longest: u64, room: u64, letters: &[char]) -> Draft {
    let numbers = shuffled(random, (0..count).collect());
    let (edition, capacities) = devices(random, resources);
    let activities = activities(random, count, edition, &capacities, longest);
    Draft { edition, capacities, activities, nodes: term(random, &numbers, room, letters) }
}

fn tiny(random: &mut Random) -> Draft {
    let (count, resources, longest) = (random.between(1, 5), random.between(1, 3), random.between(1, 5));
    draft(random, count, resources, longest, 16, &['s', 'p', 'x'])
}

fn middling(random: &mut Random) -> Draft {
    let (count, resources) = (random.between(4, 10), random.between(2, 6));
    let longest = random.pick(&[2, 5, 20, 100, 20_000]);
    draft(random, count, resources, longest, 40, &['s', 's', 'p', 'p', 'x'])
}

fn large(random: &mut Random) -> Draft {
    let count = random.between(11, 24);
    let (resources, longest) = (random.between(1, 16), random.pick(&[3, 50, 20_000]));
    draft(random, count, resources, longest, 64, &['s', 's', 's', 'p', 'x'])
}

/// The nodes of a term that has all of the activities in each variant, or nearly all. At most `nested` x stand one in
/// another.
fn shared_term(random: &mut Random, activities: &[u64], nested: u64) -> Vec<Node> {
    if nested > 0 && random.once_in(2) {
        let children = random.between(2, 4);
        let first = shared_term(random, activities, nested - 1);
        let others: Vec<Node> =
            (1..children).flat_map(|_| another_order(random, &first, activities, nested - 1)).collect();
        return [&[('x', children)], &first[..], &others].concat();
    }
    if let [only] = activities {
        return vec![('a', *only)];
    }
    let (front, back) = activities.split_at(1 + random.index(activities.len() - 1));
    let letter = random.pick(&['s', 'p']);
    [&[(letter, 2)], &shared_term(random, front, nested)[..], &shared_term(random, back, nested)].concat()
}

/// The term again, with other letters, or another one of its activities, in their order or not, perhaps without the
/// first.
fn another_order(random: &mut Random, nodes: &[Node], activities: &[u64], nested: u64) -> Vec<Node> {
    match random.below(8) {
        0 => nodes.to_vec(),
        1..=3 => nodes.iter().map(|&(letter, number)| (turned(random, letter), number)).collect(),
        4 => shared_term(random, activities, nested),
        5 => shared_term(random, &activities.iter().rev().copied().collect::<Vec<_>>(), nested),
        6 => {
            let numbers = shuffled(random, activities.to_vec());
            shared_term(random, &numbers, nested)
        }
        _ => shared_term(random, &activities[usize::from(activities.len() > 1)..], nested),
    }
}

/// An s is made a p, or a p an s, once in two times.
fn turned(random: &mut Random, letter: char) -> char {
    match letter {
        's' | 'p' => random.pick(&['s', 'p']),
        _ => letter,
    }
}

/// Variants that have the same activities, in the same order or in others.
fn shared(random: &mut Random) -> Draft {
    let (count, resources) = (random.between(2, 6), random.between(1, 3));
    let longest = random.pick(&[1, 2, 5, 20_000]);
    let (edition, capacities) = devices(random, resources);
    let activities = activities(random, count, edition, &capacities, longest);
    loop {
        let numbers = shuffled(random, (0..count).collect());
        let nested = random.between(1, 2);
        let nodes = shared_term(random, &numbers, nested);
        if nodes.len() <= 64 {
            return Draft { edition, capacities, activities, nodes };
        }
    }
}

/// A plan with some groups of one put over terms of it.
fn groups_of_one(random: &mut Random) -> Draft {
    let mut draft = if random.once_in(2) { tiny(random) } else { middling(random) };
    for _ in 0..random.between(1, 3) {
        draft.nodes.insert(random.index(draft.nodes.len()), (random.pick(&['s', 'p', 'x']), 1));
    }
    draft
}

/// A p over x of some activities each, no activity under two of them, most x having a resource of their own.
fn choices(random: &mut Random, sizes: &[(u64, u64)], repeat: bool) -> Draft {
    let mut nodes = vec![('p', sizes.len() as u64)];
    let longest = random.pick(&[1, 4, 20_000]);
    let (edition, capacities) = devices(random, 16);
    let mut activities = activities(random, 24, edition, &capacities, longest);
    let mut first = 0;
    for (own, &(children, distinct)) in sizes.iter().enumerate() {
        nodes.push(('x', children));
        for child in 0..children {
            let of = if repeat { random.below(distinct) } else { child % distinct };
            nodes.push(('a', first + of));
        }
        if !random.once_in(10) {
            (0..distinct).for_each(|of| activities[(first + of) as usize].1 = on(own as u64, 16));
        }
        first += distinct;
    }
    Draft { edition, capacities, activities, nodes }
}

/// Around 4096 variants, or some hundreds.
fn many_variants(random: &mut Random) -> Draft {
    match random.below(8) {
        0 => choices(random, &[(2, 2); 12], false),
        1 => {
            // 4097: an activity beside 4096
            let mut draft = choices(random, &[(2, 2); 12], false);
            draft.nodes.splice(0..0, [('x', 2), ('a', 3)]);
            draft
        }
        2 => choices(random, &[(4, 2); 6], true),
        3 => choices(random, &[(8, 5); 4], true),
        _ => {
            let sizes: Vec<(u64, u64)> = (0..random.between(2, 5)).map(|_| (random.between(2, 4), 4)).collect();
            choices(random, &sizes, true)
        }
    }
}

/// More than 4096 variants, up to some millions.
fn too_many_variants(random: &mut Random) -> Draft {
    match random.below(5) {
        0 => {
            let mut sizes = [(2, 2); 12];
            sizes[random.below(12) as usize].0 = 3;
            choices(random, &sizes, false)
        }
        1 => choices(random, &[(4, 2); 12], true),
        2 => choices(random, &[(3, 3); 8], true),
        3 => choices(random, &[(6, 3); 8], true),
        _ => choices(random, &[(30, 12); 2], true),
    }
}

/// Files of 983 or 2175 bytes, the longest of their edition that can be accepted: every value has as many digits as it
/// may. Or one byte less, or some more.
fn longest(random: &mut Random) -> Vec<u8> {
    let edition = random.between(1, 2);
    let capacities: Vec<u64> = (0..16).map(|_| if edition == 1 { 1 } else { random.between(10, 15) }).collect();
    let units = |random: &mut Random| match edition {
        1 => on(random.between(10, 15), 16),
        _ => capacities.iter().map(|&capacity| random.between(10, capacity)).collect(),
    };
    let activities = (0..24).map(|_| (random.between(10_000, 20_000), units(random))).collect();
    let nodes = longest_nodes(random);
    let mut text = Draft { edition, capacities, activities, nodes }.text();
    match random.below(6) {
        0 => {
            let byte = random.pick(b"\n0a");
            text.resize(random.pick(&[text.len() + 1, 2175, 2176]), byte);
        }
        1 => {
            text.pop();
        }
        _ => {}
    }
    text
}

/// 64 nodes of two digits each.
fn longest_nodes(random: &mut Random) -> Vec<Node> {
    let mut nodes = vec![];
    let mut groups = vec![random.between(1, 6)];
    let mut left = 63;
    while let Some(spare) = groups.pop() {
        // an x of ten children or more, and as many more groups below it as can still have ten
        let below = random.below(spare.min(left / 10));
        let children = if below == 0 { left } else { random.between(10, left - 10 * below) };
        nodes.push(('x', children));
        left -= children;
        let leaves = if below == 0 { children } else { children - 1 };
        nodes.extend((0..leaves).map(|_| ('a', random.between(10, 23))));
        if below > 0 {
            groups.push(below);
        }
    }
    nodes
}

/// One activity node now names another.
fn twice(random: &mut Random) -> Draft {
    let mut draft = if random.once_in(2) { tiny(random) } else { middling(random) };
    let at = random.index(draft.nodes.len());
    if draft.nodes[at].0 == 'a' {
        draft.nodes[at].1 = random.below(draft.activities.len() as u64);
    }
    draft
}

/// Nodes that are no term, or one by chance: cut short, left over, or with another count of children.
fn loose_nodes(random: &mut Random) -> Draft {
    let mut draft = match random.below(3) {
        0 => tiny(random),
        1 => middling(random),
        _ => large(random),
    };
    let size = draft.nodes.len();
    let at = random.index(size);
    match random.below(5) {
        0 => draft.nodes.truncate(at.max(1)),
        1 => {
            let extra = random.between(1, 3);
            draft.nodes.extend((0..extra).map(|_| ('a', 0)));
            draft.nodes.truncate(64);
        }
        2 if draft.nodes[at].0 != 'a' => draft.nodes[at].1 = random.between(2, 63),
        3 => draft.nodes[at].0 = random.pick(&['s', 'p', 'x']),
        _ => {
            let other = draft.nodes.remove(at);
            draft.nodes.insert(random.index(size), other);
        }
    }
    for node in &mut draft.nodes {
        node.1 = if node.0 == 'a' { node.1.min(draft.activities.len() as u64 - 1) } else { node.1.max(2) };
    }
    draft
}

/// One or two values replaced by others at and past their limits, or a duration alone.
fn out_of_range(random: &mut Random) -> Vec<u8> {
    let small = [0, 1, 2, 15, 16, 17, 23, 24, 25, 63, 64, 65];
    let great = [1999, 2000, 2001, 9999, 10000, 19999, 20000, 20001, 99999];
    let mut draft = if random.once_in(2) { tiny(random) } else { middling(random) };
    if random.once_in(3) {
        let at = random.index(draft.activities.len());
        draft.activities[at].0 = random.pick(&[0, 2001, 19999, 20000, 20001]);
        return draft.text();
    }
    let mut text = draft.text();
    for _ in 0..random.between(1, 2) {
        let value = random.pick(&[&small[..], &great].concat());
        text = with_value(random, &text, &value.to_string());
    }
    text
}

/// A plan of edition 2 with one or two faults in its `cap` and `act` lines, or on both sides of a limit there.
fn units_out_of_place(random: &mut Random) -> Vec<u8> {
    let mut draft = if random.once_in(2) { tiny(random) } else { middling(random) };
    draft.edition = 2;
    if random.once_in(2) {
        for _ in 0..random.between(1, 2) {
            beside_capacity(random, &mut draft);
        }
        return draft.text();
    }
    let mut lines: Vec<String> = String::from_utf8(draft.text()).unwrap().lines().map(str::to_string).collect();
    for _ in 0..random.between(1, 2) {
        damage_units(random, &mut lines);
    }
    (lines.join("\n") + "\n").into_bytes()
}

/// A capacity or a unit count at or past its limit.
fn beside_capacity(random: &mut Random, draft: &mut Draft) {
    let (r, i) = (random.index(draft.capacities.len()), random.index(draft.activities.len()));
    let capacity = draft.capacities[r];
    match random.below(4) {
        0 => draft.capacities[r] = random.pick(&[0, 1, 14, 15, 16, 17, 99999]),
        1 => draft.activities[i].1[r] = random.pick(&[0, 15, 16, 17, 99999]),
        _ => draft.activities[i].1[r] = random.pick(&[capacity, capacity, capacity + 1, capacity + 2]),
    }
    if random.once_in(6) {
        draft.activities[i].0 = random.pick(&[0, 20_000, 20_001]);
    }
}

/// A fault in one of the `cap` lines or `act` lines.
fn damage_units(random: &mut Random, lines: &mut Vec<String>) {
    let key = random.pick(&["cap=", "act=", "act="]);
    let of_key: Vec<usize> = (0..lines.len()).filter(|&n| lines[n].starts_with(key)).collect();
    if of_key.is_empty() {
        return;
    }
    let at = random.pick(&of_key);
    match random.below(3) {
        _ if key == "act=" => lines[at] = damaged_counts(random, &lines[at]),
        0 => drop(lines.remove(at)),
        1 => lines.insert(at, format!("cap={}", random.pick(&[1, 2, 15]))),
        _ => lines[at] = format!("cap={}", random.pick(&["0", "16", "01", "015", "1,1", "", "x"])),
    }
}

/// A count is left out, put in or of another form.
fn damaged_counts(random: &mut Random, line: &str) -> String {
    let mut fields: Vec<&str> = line.split(',').collect();
    let at = random.index(fields.len());
    match random.below(4) {
        0 => drop(fields.remove(at)),
        1 => fields.insert(at + 1, random.pick(&["0", "1", "16"])),
        2 if at > 0 => fields[at] = random.pick(&["00", "01", "16", "", "1 ", "x"]),
        _ => fields.truncate(at + 1),
    }
    fields.join(",")
}

/// Lines of the right forms in a random order.
fn any_lines(random: &mut Random) -> Vec<u8> {
    let mut text = String::new();
    for _ in 0..random.between(1, 20) {
        let value = random.pick(&[0, 1, 1, 2, 3, 16, 24, 64]);
        let other = random.pick(&[0, 1, 2, 63, 20_000]);
        text += &match random.below(7) {
            0 => format!("plan={value}\n"),
            1 => format!("res={value}\n"),
            2 => format!("acts={value}\n"),
            3 => format!("act={value},{other}\n"),
            4 => format!("nodes={value}\n"),
            5 => format!("cap={value}\n"),
            _ => format!("node={},{other}\n", random.pick(&['a', 's', 'p', 'x', 'b', 'A'])),
        };
    }
    let front = random.pick(&[
        "",
        "plan=1\n",
        "plan=2\n",
        "plan=1\nres=1\n",
        "plan=2\nres=1\n",
        "plan=1\nres=1\nacts=1\nact=0,1\n",
        "plan=2\nres=1\ncap=2\nacts=1\nact=1,2\n",
    ]);
    (front.to_string() + &text).into_bytes()
}

fn any_bytes(random: &mut Random) -> Vec<u8> {
    let length = random.pick(&[0, 0, 1, 7, 100, 983, 984, 2174, 2175, 2176, 2177, 4000]);
    let from = random.pick(&[&b"plan=2\nres=cap=acts=node=0123456789,aspx\n"[..], b"\n", b"\0", b"plan=1\n"]);
    if random.once_in(2) {
        (0..length).map(|_| random.number() as u8).collect()
    } else {
        (0..length).map(|i| if random.once_in(20) { random.number() as u8 } else { from[i % from.len()] }).collect()
    }
}

/// Where the values of a text stand: the runs of digits.
fn values(text: &[u8]) -> Vec<std::ops::Range<usize>> {
    let mut runs: Vec<std::ops::Range<usize>> = vec![];
    for (at, byte) in text.iter().enumerate() {
        match runs.last_mut() {
            Some(run) if byte.is_ascii_digit() && run.end == at => run.end += 1,
            _ if byte.is_ascii_digit() => runs.push(at..at + 1),
            _ => {}
        }
    }
    runs
}

fn with_value(random: &mut Random, text: &[u8], value: &str) -> Vec<u8> {
    let mut text = text.to_vec();
    let runs = values(&text);
    if !runs.is_empty() {
        let run = runs[random.index(runs.len())].clone();
        text.splice(run, value.bytes());
    }
    text
}

/// One to three faults in the text.
fn damaged(random: &mut Random, mut text: Vec<u8>) -> Vec<u8> {
    for _ in 0..random.between(1, 3) {
        if text.is_empty() {
            return text;
        }
        text = damage(random, text);
    }
    text
}

fn damage(random: &mut Random, mut text: Vec<u8>) -> Vec<u8> {
    let at = random.index(text.len());
    let mut lines: Vec<Vec<u8>> = text.split_inclusive(|&b| b == b'\n').map(<[u8]>::to_vec).collect();
    let line = random.index(lines.len());
    match random.below(16) {
        0 => text[at] ^= 1 << random.below(8),
        1 => text[at] = random.number() as u8,
        2 => text[at] = random.pick(b"\0\r\n 0,=-+9aspx"),
        3 => {
            text.remove(at);
        }
        4 => text.insert(at, random.pick(b"\0\r\n 0,=-+9aspx")),
        5 => text.truncate(at),
        6 => {
            text.pop();
        }
        7 => text.extend_from_slice(random.pick(&[&b"\n"[..], b"\0", b"x", b"node=a,0\n", b"plan=2\n"])),
        8 => {
            lines.remove(line);
            text = lines.concat();
        }
        9 => {
            lines.insert(line, lines[line].clone());
            text = lines.concat();
        }
        10 => {
            let other = random.index(lines.len());
            lines.swap(line, other);
            text = lines.concat();
        }
        11 => {
            let keep = random.below(lines[line].len() as u64) as usize;
            lines[line].truncate(keep);
            text = lines.concat();
        }
        12 => {
            let all = random.once_in(2);
            for (number, bytes) in lines.iter_mut().enumerate() {
                if (all || number == line) && bytes.ends_with(b"\n") {
                    bytes.insert(bytes.len() - 1, b'\r');
                }
            }
            text = lines.concat();
        }
        13 => {
            let runs = values(&text);
            if !runs.is_empty() {
                text.insert(runs[random.index(runs.len())].start, b'0');
            }
        }
        14 => {
            let value = random.pick(&["100000", "000001", "00000", "999999", "4294967297", "18446744073709551617", ""]);
            text = with_value(random, &text, value);
        }
        _ => {
            let value = random.below(100_000).to_string();
            text = with_value(random, &text, &value);
        }
    }
    text
}
