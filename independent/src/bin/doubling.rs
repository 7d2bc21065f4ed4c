//! Writes dossiers for the clock: in each series one size doubles and all else stays as it is. Every record is taken by a
//! docket of the wide program's size.

use independent::writer::{Written, write_all};
use std::io::{self, Write};
use std::process::ExitCode;

const TOP: u16 = 0;
const BOTTOM: u16 = 1;
/// The first concept of the vocabulary behind top and bottom.
const FIRST: u16 = 2;
const BLOCK: u16 = 8;
const ROLE_NAMES: u16 = 4;

/// The name, the least size, the greatest, and the records for a size.
type Series = (&'static str, usize, usize, fn(u16) -> Vec<Written>);

const SERIES: [Series; 11] = [
    ("nothing", 1, 1, |_| Vec::new()),
    ("roles", 4, 256, roles),
    ("concepts", 64, 1024, concepts),
    ("lines", 64, 4096, lines),
    ("members", 1, 512, members),
    ("carried", 1, 512, carried),
    ("claims", 4, 256, claims),
    ("evaluation", 64, 1024, evaluation),
    ("elements", 4, 256, elements),
    ("marks", 64, 4096, marks),
    ("edges", 64, 4096, edges),
];

fn main() -> ExitCode {
    let words: Vec<String> = std::env::args().skip(1).collect();
    let words: Vec<&str> = words.iter().map(String::as_str).collect();
    let text = match words[..] {
        ["--list"] => list(),
        [series, size] => {
            let found = SERIES.iter().find(|(name, ..)| *name == series);
            let (Some((_, low, high, make)), Ok(size)) = (found, size.parse::<usize>()) else {
                return usage();
            };
            if !(*low..=*high).contains(&size) {
                return usage();
            }
            write_all(&make(size as u16))
        }
        _ => return usage(),
    };
    match io::stdout().write_all(&text) {
        Ok(()) => ExitCode::SUCCESS,
        Err(_) => ExitCode::FAILURE,
    }
}

fn usage() -> ExitCode {
    eprintln!("usage: doubling --list | doubling SERIES SIZE > DOSSIER");
    for (name, low, high, _) in SERIES {
        eprintln!("  {name} {low} to {high}");
    }
    ExitCode::from(2)
}

/// Each series with its sizes.
fn list() -> Vec<u8> {
    let mut text = String::new();
    for (name, low, high, _) in SERIES {
        let mut size = low;
        while size <= high {
            text.push_str(&format!("{name} {size}\n"));
            size *= 2;
        }
    }
    text.into_bytes()
}

fn concept(tag: u16, a: u16, b: u16) -> Written {
    Written::new(3, [tag, a, b])
}

fn pair(one: u16, other: u16) -> Written {
    Written::new(4, [one, other])
}

fn seal() -> Written {
    Written::new(6, [])
}

/// This many concepts with their mates: top and bottom, and then blocks of a name, a conjunction and two restrictions, each
/// with its opposite.
fn vocabulary(count: u16) -> Vec<Written> {
    let mut out = vec![concept(0, 0, 0), concept(1, 0, 0), pair(TOP, BOTTOM)];
    let mut standing = FIRST;
    while standing < count {
        let (name, not) = (standing, standing + 1);
        let (before, not_before) = if standing == FIRST {
            (TOP, BOTTOM)
        } else {
            (name - BLOCK, not - BLOCK)
        };
        let block = standing / BLOCK;
        let role = block % ROLE_NAMES * 2;
        let concepts = [
            concept(2, block, 0),
            concept(3, block, 0),
            concept(4, before, name),
            concept(5, not_before, not),
            concept(6, role, name),
            concept(7, role, not),
            concept(7, role + 1, name),
            concept(6, role + 1, not),
        ];
        for both in concepts.chunks_exact(2) {
            match count - standing {
                0 => break,
                1 => {
                    out.push(both[0].clone());
                    standing += 1;
                }
                _ => {
                    out.extend_from_slice(both);
                    out.push(pair(standing, standing + 1));
                    standing += 2;
                }
            }
        }
    }
    out
}

/// Inclusions: a chain through all role names that ends where it began, and then chains of longer steps.
fn roles(size: u16) -> Vec<Written> {
    let inclusion = |at: u16| Written::new(1, [at * 2 % 128, (at + 1 + at / 64) * 2 % 128]);
    (0..size).map(inclusion).chain([seal()]).collect()
}

fn concepts(size: u16) -> Vec<Written> {
    let mut out = vocabulary(size);
    out.extend((0..32).map(|axiom| Written::new(5, [axiom])));
    out.push(seal());
    out
}

/// Lines by each rule in turn, with eight or nine members.
fn lines(size: u16) -> Vec<Written> {
    let mut out = vec![Written::new(2, [0])];
    out.extend(vocabulary(64));
    let [name, not, and, only, exists] = [FIRST, FIRST + 1, FIRST + 2, FIRST + 4, FIRST + 5];
    // Behind the vocabulary: what rules 5, 8, 9 and 10 ask for.
    let [some_bottom, inner, outer, back, or] = [64, 65, 66, 67, 68];
    out.extend([
        concept(7, 0, BOTTOM),
        concept(7, 1, not),
        concept(6, 0, inner),
        concept(6, 1, exists),
        concept(5, name, not),
        Written::new(5, [TOP]),
        seal(),
    ]);
    let label = [BOTTOM, name, not, and, only, exists, some_bottom, or];
    for at in 0..size {
        let (rule, cited) = match at {
            // The lines that the others cite.
            0 => {
                out.push(Written::line([1, BOTTOM, 0, 0, 0, 0], [BOTTOM]));
                continue;
            }
            1 => (2, 0),
            _ => (at % 10 + 1, at - 1),
        };
        let leading = match rule {
            1 => [1, BOTTOM, 0, 0, 0, 0],
            2 => [2, name, not, 0, 0, 0],
            3 => [3, and, 0, 0, cited, 0],
            4 => [4, or, 0, 0, cited, 1],
            5 => [5, only, only, 0, cited, 0],
            6 => [6, TOP, 0, 0, cited, 0],
            7 => [7, name, not, 0, cited, 1],
            8 => [8, name, not, outer, cited, 1],
            9 => [9, only, exists, back, cited, 1],
            _ => [10, some_bottom, 0, 0, 0, 0],
        };
        out.push(Written::line(leading, label));
    }
    out
}

/// 256 lines of this many members each, by the rules that ask for few.
fn members(size: u16) -> Vec<Written> {
    let mut out = vocabulary(1024);
    out.extend([Written::new(5, [TOP]), seal()]);
    let label = || (0..size).map(|at| BOTTOM + at * (1022 / size));
    for at in 0..256 {
        let leading = match at % 3 {
            0 => [1, BOTTOM, 0, 0, 0, 0],
            1 => [6, TOP, 0, 0, at - 1, 0],
            _ => [7, FIRST, FIRST + 1, 0, at - 1, at - 2],
        };
        out.push(Written::line(leading, label()));
    }
    out
}

/// 256 lines by rule 10, whose labels have this many restrictions that carry something over.
fn carried(size: u16) -> Vec<Written> {
    let mut out = vec![Written::new(2, [2]), Written::new(1, [0, 2])];
    out.extend(vocabulary(500));
    out.push(concept(7, 0, BOTTOM));
    out.extend((0..512).map(|at| concept(6, at % 2 * 2, at % 500)));
    out.extend([Written::new(5, [TOP]), seal()]);
    out.push(Written::line([1, BOTTOM, 0, 0, 0, 0], [BOTTOM]));
    let label = || (0..size).map(|at| 501 + at);
    for _ in 0..256 {
        out.push(Written::line([10, 500, 0, 0, 0, 0], [500].into_iter().chain(label())));
    }
    out
}

/// Claims of eight members, each closed as empty.
fn claims(size: u16) -> Vec<Written> {
    let mut out = vocabulary(64);
    out.push(seal());
    out.push(Written::line([1, BOTTOM, 0, 0, 0, 0], [BOTTOM]));
    for at in 0..size {
        out.push(Written::new(
            8,
            (0..8).map(|member| BOTTOM + 7 * member).collect::<Vec<_>>(),
        ));
        out.push(Written::new(9, [at, 0]));
    }
    out
}

/// A vocabulary and so many claims that are to be closed by models.
fn to_be_closed(concepts: u16, claims: u16) -> Vec<Written> {
    // Role name 0 is below role name 1, which is below role name 2, which is transitive.
    let mut out = vec![Written::new(1, [0, 2]), Written::new(1, [2, 4]), Written::new(2, [4])];
    out.extend(vocabulary(concepts));
    out.extend([Written::new(5, [TOP]), seal()]);
    out.extend((0..claims).map(|_| Written::new(8, [TOP])));
    out
}

/// The same edges for each of the four role names, from low elements to high ones, so that no two of a role follow each
/// other and every role axiom holds.
fn some_edges(count: u16, from: u16, elements: u16) -> impl Iterator<Item = [u16; 3]> {
    let each = count / ROLE_NAMES;
    let to = elements - from;
    (0..count).map(move |at| {
        let (role, place) = (at / each, at % each);
        let row = each.div_ceil(from);
        assert!(row <= to);
        [role, place / row, from + place % row * (to / row)]
    })
}

fn some_marks(count: u16, elements: u16) -> impl Iterator<Item = [u16; 2]> {
    let row = count.div_ceil(elements);
    (0..count).map(move |at| [at / row, at % row])
}

/// One model against this many concepts.
fn evaluation(size: u16) -> Vec<Written> {
    let mut out = to_be_closed(size, 1);
    out.push(Written::model(0, 0, 64, some_marks(128, 64), some_edges(256, 16, 64)));
    out
}

/// 16 models of this many elements, with the same marks and edges each time.
fn elements(size: u16) -> Vec<Written> {
    let mut out = to_be_closed(256, 16);
    out.extend((0..16).map(|claim| Written::model(claim, 0, size, some_marks(16, 4), some_edges(16, 2, 4))));
    out
}

/// 16 models with this many marks.
fn marks(size: u16) -> Vec<Written> {
    let mut out = to_be_closed(64, 16);
    out.extend((0..16).map(|claim| Written::model(claim, 0, 256, some_marks(size, 256), some_edges(64, 4, 256))));
    out
}

/// 16 models with this many edges.
fn edges(size: u16) -> Vec<Written> {
    let mut out = to_be_closed(64, 16);
    out.extend((0..16).map(|claim| Written::model(claim, 0, 256, some_marks(64, 256), some_edges(size, 64, 256))));
    out
}
