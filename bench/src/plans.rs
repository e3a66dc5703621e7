//! The plans that are timed.

pub struct Plan {
    pub name: String,
    pub file: Vec<u8>,
}

fn plan(name: &str, activities: &[(usize, u64)], nodes: &str) -> Plan {
    let resources = activities.iter().map(|a| a.0).max().unwrap() + 1;
    let mut text = format!("plan=1\nres={resources}\nacts={}\n", activities.len());
    for (resource, duration) in activities {
        text += &format!("act={resource},{duration}\n");
    }
    text += &format!("nodes={}\n", nodes.split_whitespace().count());
    for node in nodes.split_whitespace() {
        text += &format!("node={node}\n");
    }
    Plan { name: name.to_string(), file: text.into_bytes() }
}

/// A plan of edition 2: the units of each resource, and of each activity its units of each resource.
fn plan_of_units(name: &str, capacities: &[u64], activities: &[Vec<u64>], nodes: &str) -> Plan {
    let mut text = format!("plan=2\nres={}\n", capacities.len());
    capacities.iter().for_each(|capacity| text += &format!("cap={capacity}\n"));
    text += &format!("acts={}\n", activities.len());
    for (i, units) in activities.iter().enumerate() {
        let counts: String = units.iter().map(|count| format!(",{count}")).collect();
        text += &format!("act={}{counts}\n", duration(i));
    }
    text += &format!("nodes={}\n", nodes.split_whitespace().count());
    nodes.split_whitespace().for_each(|node| text += &format!("node={node}\n"));
    Plan { name: name.to_string(), file: text.into_bytes() }
}

/// Some duration, a different one for each activity.
fn duration(i: usize) -> u64 {
    1 + (i as u64 * 37 + 11) % 61
}

/// Activities side by side, so many on each resource.
fn side_by_side(sizes: &[usize]) -> (Vec<(usize, u64)>, String) {
    let resources = sizes.iter().enumerate().flat_map(|(resource, &size)| vec![resource; size]);
    let activities: Vec<(usize, u64)> = resources.enumerate().map(|(i, resource)| (resource, duration(i))).collect();
    let leaves: String = (0..activities.len()).map(|i| format!(" a,{i}")).collect();
    let nodes = format!("p,{}{leaves}", activities.len());
    (activities, nodes)
}

fn flat(sizes: &[usize]) -> Plan {
    let (activities, nodes) = side_by_side(sizes);
    let sizes: Vec<String> = sizes.iter().map(usize::to_string).collect();
    plan(&format!("p of {} on {}", sizes.join("+"), sizes.len()), &activities, &nodes)
}

/// Jobs side by side, each a sequence of activities on the resources that `resource` gives for a job and a step.
fn shop(jobs: usize, steps: usize, resource: impl Fn(usize, usize) -> usize) -> (Vec<(usize, u64)>, String) {
    let mut activities = vec![];
    let mut nodes = format!("p,{jobs}");
    for job in 0..jobs {
        nodes += &format!(" s,{steps}");
        for step in 0..steps {
            nodes += &format!(" a,{}", activities.len());
            activities.push((resource(job, step), duration(activities.len())));
        }
    }
    (activities, nodes)
}

fn flow_shop(jobs: usize, steps: usize) -> Plan {
    let (activities, nodes) = shop(jobs, steps, |_, step| step);
    plan(&format!("flow shop {jobs} x {steps}"), &activities, &nodes)
}

/// The same shop under both picks of an x.
fn flow_shop_twice(jobs: usize, steps: usize) -> Plan {
    let (activities, nodes) = shop(jobs, steps, |_, step| step);
    plan(&format!("flow shop {jobs} x {steps} twice"), &activities, &format!("x,2 {nodes} {nodes}"))
}

/// Every other job goes the other way round.
fn job_shop(jobs: usize, steps: usize) -> Plan {
    let resource = |job, step| (job + if job % 2 == 0 { step } else { steps - 1 - step }) % steps;
    let (activities, nodes) = shop(jobs, steps, resource);
    plan(&format!("job shop {jobs} x {steps}"), &activities, &nodes)
}

/// Jobs that begin with a choice between two resources.
fn shop_with_choices(jobs: usize, steps: usize) -> Plan {
    let mut activities = vec![];
    let mut nodes = format!("p,{jobs}");
    for job in 0..jobs {
        nodes += &format!(" s,{steps} x,2");
        for place in 0..=steps {
            nodes += &format!(" a,{}", activities.len());
            activities.push(((job + place) % steps, duration(activities.len())));
        }
    }
    plan(&format!("shop {jobs} x {steps} with choices"), &activities, &nodes)
}

/// A p over twelve x of two: 4096 variants.
fn twelve_choices() -> Plan {
    let activities: Vec<(usize, u64)> = (0..24).map(|i| (i / 4, duration(i))).collect();
    let choices: String = (0..12).map(|i| format!(" x,2 a,{} a,{}", 2 * i, 2 * i + 1)).collect();
    plan("p of 12 x of 2", &activities, &format!("p,12{choices}"))
}

/// A p over six x of two orders and three activities more: 64 variants with the same activities, which share many
/// sessions. An x has two activities in sequence, or else the other way round or side by side.
fn six_orders() -> Plan {
    let activities: Vec<(usize, u64)> = (0..15).map(|i| (i % 5, duration(i))).collect();
    let choice = |i: usize| {
        let (a, b) = (2 * i, 2 * i + 1);
        let other = if i % 3 == 2 { format!("s,2 a,{b} a,{a}") } else { format!("p,2 a,{a} a,{b}") };
        format!(" x,2 s,2 a,{a} a,{b} {other}")
    };
    let choices: String = (0..6).map(choice).collect();
    plan("p of 6 x of 2 orders", &activities, &format!("p,9{choices} a,12 a,13 a,14"))
}

pub fn main_plans() -> Vec<Plan> {
    vec![
        job_shop(5, 3),
        shop_with_choices(4, 3),
        flat(&[7]),
        flow_shop(5, 3),
        flow_shop_twice(5, 3),
        job_shop(6, 3),
        six_orders(),
        flow_shop(5, 4),
        job_shop(6, 4),
        twelve_choices(),
        flat(&[9]),
        flow_shop(6, 3),
        flat(&[8, 4]),
        flow_shop(6, 4),
    ]
}

/// Twelve activities side by side, the sessions more and more.
pub fn by_sessions() -> Vec<Plan> {
    let sizes: [&[usize]; 6] = [&[4, 3, 3, 2], &[4, 4, 4], &[6, 4, 2], &[7, 4, 1], &[6, 6], &[8, 4]];
    sizes.map(flat).into()
}

/// Twelve activities side by side, from some 10^4 rows to some 10^6.
pub fn by_rows() -> Vec<Plan> {
    let sizes: [&[usize]; 6] = [&[4, 4, 4], &[6, 4, 2], &[7, 4, 1], &[8, 3, 1], &[6, 6], &[8, 4]];
    sizes.map(flat).into()
}

/// Eight activities side by side on one resource, and then a sequence: 40320 sessions, the activities more and more.
pub fn by_activities() -> Vec<Plan> {
    let with_tail = |tail: usize| {
        let (mut activities, mut nodes) = side_by_side(&[8]);
        if tail > 0 {
            nodes = format!("s,{} {nodes}", tail + 1);
        }
        for i in 8..8 + tail {
            activities.push((1 + i % 3, duration(i)));
            nodes += &format!(" a,{i}");
        }
        plan(&format!("p of 8, then {tail}"), &activities, &nodes)
    };
    [0, 4, 8, 12, 16].map(with_tail).into()
}

/// The nodes of so many activities side by side.
fn leaves(count: usize) -> String {
    (0..count).fold(format!("p,{count}"), |nodes, i| nodes + &format!(" a,{i}"))
}

/// Activities side by side, each with the units that `units` gives for its number.
fn flat_units(name: &str, capacities: &[u64], count: usize, units: impl Fn(usize) -> Vec<u64>) -> Plan {
    let activities: Vec<Vec<u64>> = (0..count).map(units).collect();
    plan_of_units(name, capacities, &activities, &leaves(count))
}

/// Benches of two arms each, with so many activities of one arm side by side on each.
fn on_two_arms(sizes: &[usize]) -> Plan {
    let benches: Vec<usize> = sizes.iter().enumerate().flat_map(|(bench, &size)| vec![bench; size]).collect();
    let names: Vec<String> = sizes.iter().map(usize::to_string).collect();
    let units = |i: usize| (0..sizes.len()).map(|bench| u64::from(bench == benches[i])).collect();
    flat_units(&format!("p of {} on 2 arms", names.join("+")), &vec![2; sizes.len()], benches.len(), units)
}

/// Every third activity needs both arms.
fn both_arms(count: usize) -> Plan {
    let units = |i: usize| vec![if i % 3 == 2 { 2 } else { 1 }];
    flat_units(&format!("p of {count}, both arms"), &[2], count, units)
}

/// One or two of three units.
fn three_ways(count: usize) -> Plan {
    flat_units(&format!("p of {count} on 3 units"), &[3], count, |i| vec![1 + i as u64 % 2])
}

/// Jobs side by side, each a sequence of activities with the units that `units` gives for a job and a step.
fn shop_units(
    name: &str,
    capacities: &[u64],
    jobs: usize,
    steps: usize,
    units: impl Fn(usize, usize) -> Vec<u64>,
) -> Plan {
    let activities: Vec<Vec<u64>> = (0..jobs * steps).map(|i| units(i / steps, i % steps)).collect();
    let job =
        |job: usize| (0..steps).fold(format!(" s,{steps}"), |nodes, i| nodes + &format!(" a,{}", job * steps + i));
    let nodes = (0..jobs).fold(format!("p,{jobs}"), |nodes, n| nodes + &job(n));
    plan_of_units(name, capacities, &activities, &nodes)
}

/// An arm, an arm and the camera, or the camera.
fn arm_or_camera(place: usize) -> Vec<u64> {
    [vec![1, 0], vec![1, 1], vec![0, 1]][place % 3].clone()
}

/// Two arms and a camera, which each job uses in turn.
fn camera_shop(jobs: usize, steps: usize) -> Plan {
    let units = |job: usize, step: usize| arm_or_camera(job + step);
    shop_units(&format!("camera shop {jobs} x {steps}"), &[2, 1], jobs, steps, units)
}

/// Two arms, a camera and a stand of two places, of which an activity holds one or two.
fn stand_shop(jobs: usize, steps: usize) -> Plan {
    let units = |job: usize, step: usize| {
        [vec![1, 1, 0], vec![1, 0, 1], vec![2, 0, 1], vec![0, 1, 1]][(job + step) % 4].clone()
    };
    shop_units(&format!("stand shop {jobs} x {steps}"), &[2, 1, 2], jobs, steps, units)
}

/// Two arms and a camera: a p over so many x, each of two activities in sequence or else side by side, and three
/// activities more. The variants have the same activities and share many sessions.
fn arm_orders(choices: usize) -> Plan {
    let activities: Vec<Vec<u64>> = (0..2 * choices + 3).map(arm_or_camera).collect();
    let choice = |i: usize| {
        let (a, b) = (2 * i, 2 * i + 1);
        format!(" x,2 s,2 a,{a} a,{b} p,2 a,{a} a,{b}")
    };
    let nodes = (0..choices).fold(format!("p,{}", choices + 3), |nodes, i| nodes + &choice(i));
    let nodes = (2 * choices..2 * choices + 3).fold(nodes, |nodes, i| nodes + &format!(" a,{i}"));
    plan_of_units(&format!("arms, {choices} x of 2 orders"), &[2, 1], &activities, &nodes)
}

pub fn arm_plans() -> Vec<Plan> {
    vec![
        on_two_arms(&[8]),
        both_arms(9),
        camera_shop(3, 6),
        stand_shop(4, 4),
        three_ways(10),
        on_two_arms(&[6, 6]),
        on_two_arms(&[9]),
        camera_shop(5, 3),
        arm_orders(4),
        camera_shop(3, 8),
    ]
}

/// Twelve activities side by side, on benches of two arms, the sessions more and more.
pub fn arms_by_sessions() -> Vec<Plan> {
    let sizes: [&[usize]; 6] = [&[5, 4, 3], &[7, 3, 2], &[6, 5, 1], &[6, 6], &[8, 4], &[9, 3]];
    sizes.map(on_two_arms).into()
}

/// Eight activities side by side on two arms, and then a sequence: 18708 sessions, the activities more and more.
pub fn arms_by_activities() -> Vec<Plan> {
    let with_tail = |tail: usize| {
        let units = |i: usize| if i < 8 { vec![1, 0] } else { arm_or_camera(i) };
        let activities: Vec<Vec<u64>> = (0..8 + tail).map(units).collect();
        let mut nodes = leaves(8);
        if tail > 0 {
            nodes = (8..8 + tail).fold(format!("s,{} {nodes}", tail + 1), |nodes, i| nodes + &format!(" a,{i}"));
        }
        plan_of_units(&format!("p of 8, 2 arms, then {tail}"), &[2, 1], &activities, &nodes)
    };
    [0, 4, 8, 12, 16].map(with_tail).into()
}
