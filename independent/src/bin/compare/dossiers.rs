//! The dossiers by their numbers: each number picks a kind of dossier and all that is random in it.

use crate::random::Random;
use crate::world::{Plan, World};
use independent::intake::{NARROW, Size, WIDE};
use independent::writer::{Written, write_all};

pub const WAYS: [&str; 10] = [
    "evidence",
    "models",
    "near misses",
    "boundary values",
    "full lists",
    "damaged",
    "small numbers",
    "random bytes",
    "model limits",
    "long files",
];

pub struct Made {
    pub way: usize,
    pub bytes: Vec<u8>,
}

/// The dossier of this number under this seed.
pub fn dossier(seed: u64, number: u64, wide: bool) -> Made {
    let mut random = Random::new(seed, number);
    // Noise reaches little behind its first records, so that the other ways get more numbers.
    let way = [0, 0, 0, 1, 1, 1, 2, 2, 2, 2, 3, 3, 3, 4, 5, 5, 5, 6, 7, 8, 8, 9][(number % 22) as usize];
    let size = if wide { WIDE } else { NARROW };
    let bytes = match way {
        0 => {
            let plan = plan(&mut random, wide);
            world(random, size, plan)
        }
        1 => {
            let plan = Plan {
                about_models: 60,
                axioms: random.below(6),
                ..plan(&mut random, wide)
            };
            let plan = with_models(&mut random, plan, wide);
            world(random, size, plan)
        }
        2 => {
            let plan = Plan {
                misses: 60,
                about_models: random.one_of(&[0, 40]),
                ..plan(&mut random, wide)
            };
            let plan = with_models(&mut random, plan, wide);
            world(random, size, plan)
        }
        3 => boundary(random, size),
        4 => full(random, size),
        5 => damaged(random, size, wide),
        6 => small_numbers(random, size),
        7 => random_bytes(random),
        8 => model_limits(random, size, wide),
        _ => long(random, size, wide),
    };
    Made { way, bytes }
}

fn plan(random: &mut Random, wide: bool) -> Plan {
    let large = wide && random.percent(20);
    let times = if large { 8 } else { 1 };
    Plan {
        names: random.between(1, 4) * times,
        role_names: random.between(1, 3) * times,
        role_axioms: random.below(7) * times,
        concepts: random.between(3, 30) * times,
        axioms: random.below(4),
        steps: random.between(4, 50) * times,
        models: random.one_of(&[0, 1, 1, 2]),
        elements: random.one_of(&[1, 2, 3, 4, 6, 9]) * times,
        edges: random.below(14) * times,
        misses: random.one_of(&[0, 5, 15]),
        about_models: random.one_of(&[0, 15, 30]),
        label: if large { 200 } else { 14 },
    }
}

/// At least one model; now and then one with more elements than a word has bits, or as large as can be had.
fn with_models(random: &mut Random, plan: Plan, wide: bool) -> Plan {
    let plan = Plan {
        models: plan.models.max(1),
        ..plan
    };
    match random.below(12) {
        0 if wide => Plan {
            names: random.between(1, 15),
            role_axioms: random.below(2),
            concepts: random.between(5, 50),
            steps: random.between(2, 12),
            elements: 256,
            edges: random.between(500, 3800),
            ..plan
        },
        1 => Plan {
            names: random.between(1, 2),
            role_axioms: random.below(2),
            steps: random.between(4, 20),
            elements: random.one_of(&[64, 65, 70, 128, 130]),
            edges: random.between(20, 150),
            ..plan
        },
        _ => plan,
    }
}

fn world(random: Random, size: Size, plan: Plan) -> Vec<u8> {
    write_all(&World::new(random, size, plan).make().records)
}

/// Single fields of a dossier's records at the ends of every range there is.
fn boundary(mut random: Random, size: Size) -> Vec<u8> {
    let plan = Plan {
        misses: 0,
        steps: random.between(8, 30),
        about_models: 25,
        ..plan(&mut random, false)
    };
    let plan = with_models(&mut random, plan, false);
    let mut world = World::new(random, size, plan).make();
    let records = std::mem::take(&mut world.records);
    let mut random = world.random;
    let (mut concepts, mut lines, mut claims) = (0u16, 0u16, 0u16);
    let chance = 300 / records.len().max(4);
    let mut out = Vec::new();
    for record in records {
        for _ in 0..2 {
            if random.percent(chance) {
                let mut edge = record.clone();
                let at = match edge.fields.len() {
                    0 => None,
                    length if random.percent(70) => Some(random.below(length.min(7))),
                    length => Some(random.below(length)),
                };
                let near = [concepts, lines, claims];
                if let Some(at) = at {
                    edge.fields[at] = match random.below(4) {
                        0 => random
                            .one_of(&near)
                            .wrapping_add(random.one_of(&[0, 1]))
                            .wrapping_sub(random.one_of(&[0, 1])),
                        _ => random.one_of(&[
                            0, 1, 2, 3, 6, 7, 8, 9, 10, 11, 12, 62, 63, 64, 65, 124, 125, 126, 127, 128, 129, 255, 256,
                            257, 1022, 1023, 1024, 1025, 4095, 4096, 4097, 32767, 32768, 65534, 65535,
                        ]),
                    };
                }
                out.push(edge);
            }
        }
        match record.kind {
            3 => concepts += 1,
            7 => lines += 1,
            8 => claims += 1,
            _ => {}
        }
        out.push(record);
    }
    write_all(&out)
}

/// One or several lists filled to the last place and beyond it.
fn full(mut random: Random, size: Size) -> Vec<u8> {
    let mut out = Vec::new();
    let around = |random: &mut Random, capacity: usize, often: usize| {
        if random.percent(often) {
            capacity + random.below(12) - 1
        } else {
            random.between(1, 12)
        }
    };
    let which = random.below(5);
    let often = |of: usize| if of == which { 100 } else { 12 };
    let role_axioms = around(&mut random, 256, often(0));
    let concepts = around(&mut random, size.concepts, often(1)).max(4);
    let axioms = around(&mut random, 256, often(2));
    let lines = around(&mut random, size.lines, often(3));
    let claims = around(&mut random, 256, often(4));
    for at in 0..role_axioms {
        out.push(match random.below(20) {
            0 => Written::new(2, [random.below(129) as u16]),
            1 => Written::new(1, [random.below(129) as u16, random.below(129) as u16]),
            _ if at % 2 == 0 => Written::new(2, [(at % 128) as u16]),
            _ => Written::new(1, [(at % 128) as u16, ((at + 2) % 128) as u16]),
        });
    }
    out.push(Written::new(3, [0, 0, 0]));
    out.push(Written::new(3, [1, 0, 0]));
    out.push(Written::new(4, [0, 1]));
    for at in 2..concepts {
        let last = at as u16;
        if random.percent(3) {
            out.push(Written::new(
                3,
                [6, random.below(130) as u16, random.below(at + 2) as u16],
            ));
        }
        out.push(Written::new(
            3,
            match random.below(7) {
                0 => [2, random.below(1024) as u16, 0],
                1 => [3, random.below(1024) as u16, 0],
                2 => [4, random.below(at.min(250)) as u16, 0],
                3 => [5, 0, random.below(at.min(250)) as u16],
                4 => [6, random.below(128) as u16, random.below(at.min(250)) as u16],
                5 => [7, random.below(128) as u16, random.below(at.min(250)) as u16],
                _ => [2, last % 1024, 0],
            },
        ));
    }
    let standing = concepts.min(size.concepts);
    for _ in 0..axioms {
        let far = random.percent(3);
        out.push(Written::new(
            5,
            [if far { standing } else { random.below(standing) } as u16],
        ));
    }
    out.push(Written::new(6, []));
    if random.percent(50) {
        out.push(Written::new(3, [random.below(9) as u16, 0, 0]));
    }
    // Broken labels come thickest behind the last place, where they compete with the refusal of a full list.
    let label = |random: &mut Random, broken: usize| -> Vec<u16> {
        let mut label = vec![1];
        let mut last = 1;
        while random.percent(30) {
            last += random.between(1, 9);
            if last < standing {
                label.push(last as u16);
            }
        }
        if random.percent(broken) {
            match random.below(3) {
                0 => label.push(0),
                1 => label.push(standing as u16),
                _ => label.extend([0, standing as u16]),
            }
        }
        label
    };
    for _ in 0..lines {
        if random.percent(4) {
            let broken = label(&mut random, 100);
            out.push(Written::line([1, 1, 0, 0, 0, 0], broken));
        }
        let whole = label(&mut random, 0);
        out.push(Written::line([1, 1, 0, 0, 0, 0], whole));
    }
    for _ in 0..random.below(6) {
        let (rule, any) = (random.between(1, 11) as u16, label(&mut random, 50));
        out.push(Written::line([rule, 1, 0, 0, 0, random.below(2) as u16], any));
    }
    for at in 0..claims {
        if random.percent(4) {
            let broken = label(&mut random, 100);
            out.push(Written::new(8, broken));
        }
        let whole = label(&mut random, 0);
        out.push(Written::new(8, whole));
        if random.percent(40) {
            let line = random.below(lines + 2) as u16;
            out.push(Written::new(9, [random.below(at + 2) as u16, line]));
        }
    }
    for _ in 0..random.below(6) {
        let any = label(&mut random, 50);
        out.push(Written::new(8, any));
    }
    // All concepts at once, and what may come behind the last of them.
    for _ in 0..random.below(4) {
        let mut all: Vec<u16> = (0..standing as u16).collect();
        match random.below(6) {
            0 => all.push(0),
            1 => all.push(standing as u16 - 1),
            2 => all.push(standing as u16),
            3 => all.extend(0..standing as u16),
            _ => {}
        }
        out.push(if random.percent(50) {
            Written::new(8, all)
        } else {
            Written::line([1, 1, 0, 0, 0, 0], all)
        });
    }
    out.push(Written::new(10, [0, 0, 1, 0]));
    write_all(&out)
}

/// A valid dossier with a few things wrong, in its records or in its bytes.
fn damaged(mut random: Random, size: Size, wide: bool) -> Vec<u8> {
    let plan = plan(&mut random, wide);
    let mut world = World::new(random, size, plan).make();
    let mut records = std::mem::take(&mut world.records);
    let mut random = world.random;
    for _ in 0..random.between(0, 4) {
        damage_record(&mut random, &mut records);
    }
    let mut bytes = write_all(&records);
    for _ in 0..random.one_of(&[0, 0, 1, 1, 2, 4]) {
        damage_bytes(&mut random, &records, &mut bytes);
    }
    bytes
}

fn damage_record(random: &mut Random, records: &mut Vec<Written>) {
    if records.is_empty() {
        return;
    }
    let (at, other) = (random.below(records.len()), random.below(records.len()));
    let lines: Vec<usize> = (0..records.len()).filter(|&at| records[at].kind == 7).collect();
    match random.below(10) {
        0 => {
            records.remove(at);
        }
        1 => records.insert(at, records[other].clone()),
        2 => records.swap(at, other),
        3 => records[at].kind = random.one_of(&[0, 1, 2, 3, 4, 5, 6, 7, 8, 9, 10, 11, 255, 256, 65535]),
        4 => {
            if let Some(&line) = random.pick(&lines) {
                let field = random.one_of(&[0, 1, 2, 3, 4, 4, 5, 5]);
                if let Some(field) = records[line].fields.get_mut(field) {
                    *field = random.below(10) as u16;
                }
            }
        }
        5 => {
            if let Some(&line) = random.pick(&lines)
                && let Some(members) = records[line].fields.get_mut(6..)
            {
                members.reverse();
            }
        }
        6 => {
            let fields = &mut records[at].fields;
            if !fields.is_empty() {
                let at = random.below(fields.len());
                fields[at] = fields[at].wrapping_add(random.one_of(&[1, 2, 65535, 65534]));
            }
        }
        7 => {
            let fields = &mut records[at].fields;
            if !fields.is_empty() {
                fields.remove(random.below(fields.len()));
            }
        }
        8 => {
            let fields = &mut records[at].fields;
            fields.insert(random.below(fields.len() + 1), random.below(6) as u16);
        }
        _ => records.truncate(at + 1),
    }
}

fn damage_bytes(random: &mut Random, records: &[Written], bytes: &mut Vec<u8>) {
    if bytes.is_empty() {
        return;
    }
    let at = random.below(bytes.len());
    let before = random.below(records.len().max(1));
    let head: usize = records[..before].iter().map(|record| 4 + 2 * record.fields.len()).sum();
    match random.below(9) {
        0 | 1 => bytes[at] ^= 1 << random.below(8),
        2 => bytes.truncate(at),
        3 => {
            // The length in the head of some record, so that what follows is read out of step or cut off.
            if let Some(length) = bytes.get_mut(head) {
                *length = length.wrapping_add(random.one_of(&[1, 2, 4, 254, 255, 128]));
            }
        }
        4 => {
            bytes.remove(at);
        }
        5 => bytes.insert(at, random.next() as u8),
        // A whole record of any length, so that reading stays in step.
        _ => {
            let (kind, length) = (random.below(12) as u8, random.below(18) as u8);
            let body = (0..length).map(|at| if at % 2 == 0 { random.below(4) as u8 } else { 0 });
            let record: Vec<u8> = [length, 0, kind, 0].into_iter().chain(body).collect();
            let head = head.min(bytes.len());
            bytes.splice(head..head, record);
        }
    }
}

/// Well-formed records with small numbers, some of which happen to be right.
fn small_numbers(mut random: Random, size: Size) -> Vec<u8> {
    let mut out = Vec::new();
    let bound = random.one_of(&[2, 3, 5, 9]);
    for at in 0..random.between(1, 120) {
        let early = at < 25 && random.percent(70);
        let kind = if early {
            random.between(1, 5)
        } else {
            random.between(1, 10)
        } as u16;
        let length = match kind {
            1 | 4 | 9 => 2,
            2 | 5 => 1,
            3 => 3,
            6 => 0,
            7 => 6 + random.below(4),
            8 => random.below(4),
            _ => 4 + random.below(9),
        };
        // An early seal would turn the rest into refusals.
        if kind == 6 && early {
            continue;
        }
        let mut fields: Vec<u16> = (0..length).map(|_| random.below(bound) as u16).collect();
        if kind == 3 {
            fields[0] = random.below(9) as u16;
            if fields[0] < 2 {
                fields[1] = 0;
            }
            if fields[0] < 4 && random.percent(80) {
                fields[2] = 0;
            }
        }
        if kind == 7 {
            fields[0] = random.between(1, 10) as u16;
            let cited = [0, 0, 0, 1, 2, 1, 1, 2, 2, 2, 1][usize::from(fields[0])];
            if random.percent(90) {
                fields[4 + cited..6].fill(0);
                if matches!(fields[0], 1 | 3 | 4 | 6 | 10) {
                    fields[2] = 0;
                }
                if !matches!(fields[0], 8 | 9) {
                    fields[3] = 0;
                }
            }
            if random.percent(80) {
                fields[6..].sort_unstable();
            }
        }
        if kind == 8 && random.percent(80) {
            fields.sort_unstable();
            fields.dedup();
        }
        if kind == 10 {
            fields[2] = random.below(bound + 1) as u16;
            if random.percent(60) {
                fields[3] = (random.below(3)).min((length - 4) / 2) as u16;
                let edges = (length - 4 - 2 * usize::from(fields[3])) / 3 * 3;
                fields.truncate(4 + 2 * usize::from(fields[3]) + edges);
            }
        }
        out.push(Written::new(kind, fields));
    }
    let _ = size;
    write_all(&out)
}

fn random_bytes(mut random: Random) -> Vec<u8> {
    let length = match random.below(8) {
        0 => random.below(9),
        1 => 16_384 + random.below(2000),
        _ => random.below(700),
    };
    let most = random.one_of(&[2, 4, 12, 256]);
    (0..length).map(|_| random.below(most) as u8).collect()
}

/// Models at the limits of size, point, counts and lengths, with items at the ends of their ranges.
fn model_limits(mut random: Random, size: Size, wide: bool) -> Vec<u8> {
    let mut out = vec![
        Written::new(3, [0, 0, 0]),
        Written::new(3, [2, 0, 0]),
        Written::new(3, [3, 1023, 0]),
        Written::new(3, [6, 0, 1]),
        Written::new(3, [7, 127, 2]),
        Written::new(3, [5, 1, 3]),
        Written::new(3, [4, 2, 4]),
    ];
    if random.percent(30) {
        out.insert(0, Written::new(1, [random.below(4) as u16, random.below(4) as u16]));
    }
    if random.percent(30) {
        out.insert(0, Written::new(2, [random.one_of(&[0, 1, 126, 127])]));
    }
    if random.percent(40) {
        let axiom = random.below(7) as u16;
        out.push(Written::new(5, [axiom]));
    }
    out.push(Written::new(6, []));
    let mut bytes = 200;
    for claim in 0..random.between(2, 30) {
        let label: Vec<u16> = (0..7).filter(|_| random.percent(25)).collect();
        out.push(Written::new(8, label));
        for _ in 0..random.between(1, 3) {
            let record = limit_model(&mut random, claim as u16, wide);
            bytes += 20 + 2 * record.fields.len();
            if bytes > size.bytes {
                break;
            }
            out.push(record);
        }
    }
    write_all(&out)
}

fn limit_model(random: &mut Random, claim: u16, wide: bool) -> Written {
    let elements = random.one_of(&[1, 1, 2, 3, 4, 8, 63, 64, 65, 128, 255, 256]) as u16;
    let item = |random: &mut Random, bound: u16, often: u16| -> u16 {
        match random.below(5) {
            0 => 0,
            1 => bound - 1,
            2 => often.min(bound - 1),
            _ => random.below(bound.into()) as u16,
        }
    };
    let most = match random.below(12) {
        0 if wide => 4097,
        1 if wide => 4096,
        0..3 => 600,
        3..5 => 60,
        _ => 6,
    };
    let (mark_count, edge_count) = match random.below(4) {
        0 => (most, random.below(4)),
        1 => (random.below(4), most),
        _ => (random.below(most + 1), random.below(most + 1)),
    };
    let mut marks: Vec<[u16; 2]> = (0..mark_count)
        .map(|_| [item(random, elements, 0), item(random, 1024, 0)])
        .collect();
    let mut edges: Vec<[u16; 3]> = (0..edge_count)
        .map(|_| {
            [
                item(random, 64, 0),
                item(random, elements, 0),
                item(random, elements, 1),
            ]
        })
        .collect();
    marks.sort_unstable();
    edges.sort_unstable();
    if random.percent(95) {
        marks.dedup();
        edges.dedup();
    }
    if wide && random.percent(40) && elements > 100 {
        // As many as can be had, or one more than that.
        let many = 4095 + random.below(3);
        if random.percent(50) {
            edges = (0..many)
                .map(|at| [(at / 2048) as u16, (at % 2048 / 64) as u16, (at % 64) as u16])
                .collect();
        } else {
            marks = (0..many).map(|at| [(at / 64) as u16, (at % 64) as u16]).collect();
        }
    }
    let point = item(random, elements, 0);
    let mut record = Written::model(claim, point, elements, marks.iter().copied(), edges.iter().copied());
    let fields = &mut record.fields;
    match random.below(24) {
        0 => fields[1] = elements,
        1 => fields[2] = random.one_of(&[0, 257, 65535]),
        2 => fields[3] = random.one_of(&[0, fields[3] + 1, fields[3] + 3, 4096, 4097, 65535]),
        3 => {
            fields.pop();
            fields.resize(fields.len().max(4), 0);
        }
        4 => fields.push(random.below(3) as u16),
        5 => fields.extend([63, elements - 1, elements - 1]),
        6 => fields.extend([64, 0, 0]),
        7 | 8 if fields.len() > 4 => {
            let at = random.between(4, fields.len() - 1);
            fields[at] = random.one_of(&[0, elements - 1, elements, 63, 64, 1023, 1024, 65535]);
        }
        9 if marks.len() > 1 => {
            let at = 4 + 2 * random.below(marks.len() - 1);
            fields.swap(at, at + 2);
            fields.swap(at + 1, at + 3);
        }
        10 if edges.len() > 1 => {
            let at = 4 + 2 * marks.len() + 3 * random.below(edges.len() - 1);
            (0..3).for_each(|field| fields.swap(at + field, at + 3 + field));
        }
        11 if marks.len() > 1 => {
            let at = 4 + 2 * random.below(marks.len() - 1);
            (0..2).for_each(|field| fields[at + 2 + field] = fields[at + field]);
        }
        12 if edges.len() > 1 => {
            let at = 4 + 2 * marks.len() + 3 * random.below(edges.len() - 1);
            (0..3).for_each(|field| fields[at + 3 + field] = fields[at + field]);
        }
        _ => {}
    }
    record
}

/// Files that reach to the last byte that is read, and beyond.
fn long(mut random: Random, size: Size, wide: bool) -> Vec<u8> {
    // The whole of the wide program's memory is filled now and then only, as such a file takes its time.
    let end = if wide && random.percent(90) { 65_536 } else { size.bytes };
    let plan = Plan {
        steps: random.between(100, 260),
        concepts: random.between(20, 90),
        label: 40,
        ..plan(&mut random, false)
    };
    let mut world = World::new(random, size, plan).make();
    let records = std::mem::take(&mut world.records);
    let mut random = world.random;
    let mut file = Vec::new();
    let tail = random.below(records.len());
    let head = records.len() - tail;
    records[..head].iter().for_each(|record| record.write(&mut file));
    // Records of an unknown kind take up the room, so that what follows comes to lie across the end.
    let behind: usize = records[head..]
        .iter()
        .take(random.below(4))
        .map(|record| 4 + 2 * record.fields.len())
        .sum();
    let upto = end.saturating_sub(behind + random.below(9));
    while file.len() + 4 <= upto {
        let body = (upto - file.len() - 4).min(random.between(1, 60_000));
        file.extend_from_slice(&(body as u16).to_le_bytes());
        file.extend_from_slice(&random.one_of(&[0u16, 11, 300]).to_le_bytes());
        file.extend((0..body).map(|_| random.next() as u8));
    }
    records[head..].iter().for_each(|record| record.write(&mut file));
    file
}
