//! A finite model, looked through and evaluated.

use crate::concepts::{Concept, Concepts, NAMES};
use crate::labels::Label;
use crate::reader::field;
use crate::refusals::Refusal;
use crate::roles::{Role, RoleAxiom, Roles};

pub const ELEMENTS: usize = 256;
pub const ITEMS: usize = 4096;
const ROLE_NAMES: usize = 64;
const LEADING: usize = 8;
const MARK: usize = 4;
const EDGE: usize = 6;

/// A set of elements.
type Row = [u64; 4];
const NOBODY: Row = [0; 4];

#[inline]
fn put(row: &mut Row, element: u8) {
    row[usize::from(element >> 6)] |= 1 << (element & 63);
}

#[inline]
fn holds(row: &Row, element: u8) -> bool {
    row[usize::from(element >> 6)] >> (element & 63) & 1 == 1
}

#[inline]
fn each_word(one: &Row, other: &Row, make: impl Fn(u64, u64) -> u64) -> Row {
    std::array::from_fn(|at| make(one[at], other[at]))
}

#[inline]
fn elements_of(row: &Row) -> impl Iterator<Item = usize> + '_ {
    row.iter().enumerate().flat_map(|(at, &word)| {
        let mut left = word;
        std::iter::from_fn(move || {
            (left != 0).then(|| {
                let bit = left.trailing_zeros() as usize;
                left &= left - 1;
                64 * at + bit
            })
        })
    })
}

/// The first `size` elements.
fn everybody(size: usize) -> Row {
    std::array::from_fn(|at| match size.saturating_sub(64 * at) {
        0 => 0,
        left @ 1..64 => (1 << left) - 1,
        _ => u64::MAX,
    })
}

/// The pairs of a role name as successors of each element.
type Table = [Row; ELEMENTS];

/// Memory that serves model after model, so that judging one takes no new memory.
pub struct Workspace {
    /// The elements of each name; empty between two models.
    names: Box<[Row; NAMES]>,
    /// The edges of all role names, one name behind the other, each rising.
    edges: Vec<(u8, u8)>,
    /// Where the edges of each role name lie.
    spans: [(u16, u16); ROLE_NAMES],
    /// Made when a role name is first asked for.
    tables: Vec<Option<Box<Table>>>,
    tabled: u64,
    /// The evaluation of every concept.
    rows: Vec<Row>,
    size: usize,
    all: Row,
}

impl Workspace {
    pub fn new() -> Self {
        Workspace {
            names: vec![NOBODY; NAMES].try_into().expect("as many rows as names"),
            edges: Vec::with_capacity(ITEMS),
            spans: [(0, 0); ROLE_NAMES],
            tables: (0..ROLE_NAMES).map(|_| None).collect(),
            tabled: 0,
            rows: Vec::new(),
            size: 0,
            all: NOBODY,
        }
    }

    pub fn rows(&self) -> &[Row] {
        &self.rows
    }

    /// Judges the model of a closing's body (claim, point, n, count of marks, marks, edges) for a claim's label.
    pub fn judge(&mut self, roles: &Roles, concepts: &Concepts, body: &[u8], claim: &Label) -> Result<(), Refusal> {
        let (point, size, count) = (field(body, 1), usize::from(field(body, 2)), usize::from(field(body, 3)));
        let items = &body[LEADING..];
        let (marks, edges) = items
            .split_at_checked(MARK * count)
            .ok_or(Refusal::ill_formed_model(0))?;
        if !(1..=ELEMENTS).contains(&size)
            || usize::from(point) >= size
            || count > ITEMS
            || edges.len() > EDGE * ITEMS
            || !edges.len().is_multiple_of(EDGE)
        {
            return Err(Refusal::ill_formed_model(0));
        }
        self.size = size;
        self.all = everybody(size);
        check_marks(marks, size)?;
        self.take_edges(edges, size, count)?;
        for (number, axiom) in roles.axioms().iter().enumerate() {
            if !self.meets(*axiom) {
                return Err(Refusal::breaks_role_axiom(number));
            }
        }
        self.evaluate(concepts, marks);
        for (number, axiom) in concepts.axioms().iter().enumerate() {
            if self.rows[usize::from(*axiom)] != self.all {
                return Err(Refusal::misses_axiom(number));
            }
        }
        match claim
            .iter()
            .find(|&concept| !holds(&self.rows[usize::from(concept)], point as u8))
        {
            None => Ok(()),
            Some(concept) => Err(Refusal::misses_member(usize::from(concept))),
        }
    }

    fn take_edges(&mut self, edges: &[u8], size: usize, marks: usize) -> Result<(), Refusal> {
        self.edges.clear();
        self.spans = [(0, 0); ROLE_NAMES];
        self.tabled = 0;
        let mut least_next = 0;
        for (at, edge) in edges.chunks_exact(EDGE).enumerate() {
            let (role, from, to) = (field(edge, 0), field(edge, 1), field(edge, 2));
            let key = u64::from(role) << 32 | u64::from(from) << 16 | u64::from(to);
            if usize::from(role) >= ROLE_NAMES
                || usize::from(from) >= size
                || usize::from(to) >= size
                || key < least_next
            {
                return Err(Refusal::ill_formed_model(marks + at + 1));
            }
            least_next = key + 1;
            let span = &mut self.spans[usize::from(role)];
            if span.1 == 0 {
                span.0 = at as u16;
            }
            span.1 = at as u16 + 1;
            self.edges.push((from as u8, to as u8));
        }
        Ok(())
    }

    #[inline]
    fn pairs(&self, name: usize) -> &[(u8, u8)] {
        let (from, to) = self.spans[name];
        &self.edges[usize::from(from)..usize::from(to)]
    }

    /// Makes the table of a role name unless this model has it already.
    fn tabulate(&mut self, name: usize) {
        if self.tabled >> name & 1 == 1 {
            return;
        }
        self.tabled |= 1 << name;
        let (from, to) = self.spans[name];
        let table = self.tables[name].get_or_insert_with(|| Box::new([NOBODY; ELEMENTS]));
        table[..self.size].fill(NOBODY);
        for &(from, to) in &self.edges[usize::from(from)..usize::from(to)] {
            put(&mut table[usize::from(from)], to);
        }
    }

    #[inline]
    fn table(&self, name: usize) -> &Table {
        self.tables[name].as_ref().expect("tabulate made it")
    }

    fn meets(&mut self, axiom: RoleAxiom) -> bool {
        match axiom {
            RoleAxiom::Below(lower, upper) => {
                if lower == upper || self.pairs(lower.name()).is_empty() {
                    return true;
                }
                if self.pairs(upper.name()).is_empty() {
                    return false;
                }
                self.tabulate(upper.name());
                let table = self.table(upper.name());
                let turned = lower.is_inverse() != upper.is_inverse();
                self.pairs(lower.name()).iter().all(|&(from, to)| {
                    if turned {
                        holds(&table[usize::from(to)], from)
                    } else {
                        holds(&table[usize::from(from)], to)
                    }
                })
            }
            // A role is transitive exactly if its inverse is.
            RoleAxiom::Transitive(role) => {
                if self.pairs(role.name()).is_empty() {
                    return true;
                }
                self.tabulate(role.name());
                let table = self.table(role.name());
                self.pairs(role.name()).iter().all(|&(from, to)| {
                    let (near, far) = (&table[usize::from(from)], &table[usize::from(to)]);
                    each_word(far, near, |far, near| far & !near) == NOBODY
                })
            }
        }
    }

    /// Whether going through the table's rows is less work than going through the edges.
    fn is_dense(&self, name: usize) -> bool {
        self.pairs(name).len() > 2 * self.size
    }

    fn evaluate(&mut self, concepts: &Concepts, marks: &[u8]) {
        for name in 0..ROLE_NAMES {
            if self.is_dense(name) {
                self.tabulate(name);
            }
        }
        for mark in marks.chunks_exact(MARK) {
            put(
                &mut self.names[usize::from(field(mark, 1)) % NAMES],
                field(mark, 0) as u8,
            );
        }
        self.rows.clear();
        for concept in concepts.list() {
            let row = match *concept {
                Concept::Top => self.all,
                Concept::Bottom => NOBODY,
                Concept::Name(name) => self.names[usize::from(name)],
                Concept::NotName(name) => self.without(&self.names[usize::from(name)]),
                Concept::And(one, other) => self.both(one, other, |one, other| one & other),
                Concept::Or(one, other) => self.both(one, other, |one, other| one | other),
                Concept::Exists(role, part) => self.neighbours_in(role, self.rows[usize::from(part)]),
                Concept::Only(role, part) => {
                    let outside = self.without(&self.rows[usize::from(part)]);
                    self.without(&self.neighbours_in(role, outside))
                }
            };
            self.rows.push(row);
        }
        for mark in marks.chunks_exact(MARK) {
            self.names[usize::from(field(mark, 1)) % NAMES] = NOBODY;
        }
    }

    #[inline]
    fn both(&self, one: u16, other: u16, make: impl Fn(u64, u64) -> u64) -> Row {
        each_word(&self.rows[usize::from(one)], &self.rows[usize::from(other)], make)
    }

    #[inline]
    fn without(&self, row: &Row) -> Row {
        each_word(&self.all, row, |all, row| all & !row)
    }

    /// The elements some neighbour of which by the role lies in the row.
    #[inline]
    fn neighbours_in(&self, role: Role, row: Row) -> Row {
        let mut found = NOBODY;
        if row == NOBODY {
            return found;
        }
        if self.is_dense(role.name()) {
            let table = &self.table(role.name())[..self.size];
            if role.is_inverse() {
                for element in elements_of(&row) {
                    found = each_word(&found, &table[element], |found, more| found | more);
                }
            } else {
                for (from, successors) in table.iter().enumerate() {
                    let reaches = each_word(successors, &row, |successor, wanted| successor & wanted) != NOBODY;
                    found[from / 64] |= u64::from(reaches) << (from % 64);
                }
            }
            return found;
        }
        // Branchless, as a neighbour may well lie on either side.
        let mut step = |from: u8, to: u8| {
            let bit = row[usize::from(to >> 6)] >> (to & 63) & 1;
            found[usize::from(from >> 6)] |= bit << (from & 63);
        };
        let pairs = self.pairs(role.name());
        if role.is_inverse() {
            pairs.iter().for_each(|&(from, to)| step(to, from));
        } else {
            pairs.iter().for_each(|&(from, to)| step(from, to));
        }
        found
    }
}

impl Default for Workspace {
    fn default() -> Self {
        Workspace::new()
    }
}

fn check_marks(marks: &[u8], size: usize) -> Result<(), Refusal> {
    let mut least_next = 0;
    for (at, mark) in marks.chunks_exact(MARK).enumerate() {
        let (element, name) = (field(mark, 0), field(mark, 1));
        let key = u32::from(element) << 16 | u32::from(name);
        if usize::from(element) >= size || usize::from(name) >= NAMES || key < least_next {
            return Err(Refusal::ill_formed_model(at + 1));
        }
        least_next = key + 1;
    }
    Ok(())
}
