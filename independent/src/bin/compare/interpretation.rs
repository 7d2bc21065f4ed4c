//! Finite interpretations for the generator: written for plainness, element by element, and not by the code that judges
//! models.

use crate::random::Random;
use independent::concepts::Concept;
use independent::roles::{Role, RoleAxiom};
use independent::writer::Written;
use std::collections::BTreeSet;

#[derive(Clone, Debug)]
pub struct Interpretation {
    pub size: u16,
    /// Element and name.
    pub marks: BTreeSet<[u16; 2]>,
    /// Role name, from and to.
    pub edges: BTreeSet<[u16; 3]>,
}

const MOST_EDGES: usize = 4096;

impl Interpretation {
    /// Random marks and edges, and then every edge that the role axioms ask for; none if that is too many.
    pub fn random(
        random: &mut Random,
        size: u16,
        names: &[u16],
        role_names: &[u16],
        edges: usize,
        axioms: &[RoleAxiom],
    ) -> Option<Self> {
        let mut made = Interpretation {
            size,
            marks: BTreeSet::new(),
            edges: BTreeSet::new(),
        };
        let (full, density) = (random.one_of(names), random.between(10, 90));
        for element in 0..size {
            for &name in names {
                if name == full || random.percent(density) {
                    made.marks.insert([element, name]);
                }
            }
        }
        for _ in 0..edges {
            let (from, to) = (random.below(size.into()) as u16, random.below(size.into()) as u16);
            made.edges.insert([random.one_of(role_names), from, to]);
        }
        made.close(axioms).then_some(made)
    }

    fn pairs(&self, role: Role) -> Vec<(u16, u16)> {
        let of_name = self.edges.iter().filter(|edge| usize::from(edge[0]) == role.name());
        of_name
            .map(|edge| {
                if role.is_inverse() {
                    (edge[2], edge[1])
                } else {
                    (edge[1], edge[2])
                }
            })
            .collect()
    }

    fn add(&mut self, role: Role, (from, to): (u16, u16)) {
        let name = role.name() as u16;
        self.edges.insert(if role.is_inverse() {
            [name, to, from]
        } else {
            [name, from, to]
        });
    }

    fn close(&mut self, axioms: &[RoleAxiom]) -> bool {
        loop {
            let before = self.edges.len();
            for axiom in axioms {
                match *axiom {
                    RoleAxiom::Below(lower, upper) => {
                        self.pairs(lower).into_iter().for_each(|pair| self.add(upper, pair));
                    }
                    RoleAxiom::Transitive(role) => {
                        let pairs: BTreeSet<(u16, u16)> = self.pairs(role).into_iter().collect();
                        for &(from, by) in &pairs {
                            for &(_, to) in pairs.range((by, 0)..=(by, u16::MAX)) {
                                self.add(role, (from, to));
                            }
                        }
                    }
                }
                if self.edges.len() > MOST_EDGES {
                    return false;
                }
            }
            if self.edges.len() == before {
                return true;
            }
        }
    }

    /// For each concept, whether it holds of each element.
    pub fn evaluate(&self, concepts: &[Concept]) -> Vec<Vec<bool>> {
        let mut found: Vec<Vec<bool>> = Vec::new();
        for concept in concepts {
            let of = |part: u16, element: u16| found[usize::from(part)][usize::from(element)];
            let neighbours = |role: Role| {
                let mut lists = vec![Vec::new(); self.size.into()];
                for (from, to) in self.pairs(role) {
                    lists[usize::from(from)].push(to);
                }
                lists
            };
            let elements = 0..self.size;
            let row = match *concept {
                Concept::Top => vec![true; self.size.into()],
                Concept::Bottom => vec![false; self.size.into()],
                Concept::Name(name) => elements.map(|e| self.marks.contains(&[e, name])).collect(),
                Concept::NotName(name) => elements.map(|e| !self.marks.contains(&[e, name])).collect(),
                Concept::And(a, b) => elements.map(|e| of(a, e) && of(b, e)).collect(),
                Concept::Or(a, b) => elements.map(|e| of(a, e) || of(b, e)).collect(),
                Concept::Only(role, part) => {
                    let lists = neighbours(role);
                    lists.iter().map(|list| list.iter().all(|&e| of(part, e))).collect()
                }
                Concept::Exists(role, part) => {
                    let lists = neighbours(role);
                    lists.iter().map(|list| list.iter().any(|&e| of(part, e))).collect()
                }
            };
            found.push(row);
        }
        found
    }

    pub fn closing(&self, claim: u16, point: u16) -> Written {
        Written::model(
            claim,
            point,
            self.size,
            self.marks.iter().copied(),
            self.edges.iter().copied(),
        )
    }
}
