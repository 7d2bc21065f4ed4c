//! Concepts, their mates and the axioms.

use crate::labels::Label;
use crate::refusals::Refusal;
use crate::roles::{ROLES, Role};

pub const NAMES: usize = 1024;
pub const AXIOMS: usize = 256;
const TAGS: u16 = 8;

/// No concept has this number, as at most 1,024 stand.
const NO_MATE: u16 = u16::MAX;

#[derive(Clone, Copy, PartialEq, Eq, Debug)]
pub enum Concept {
    Top,
    Bottom,
    Name(u16),
    NotName(u16),
    And(u16, u16),
    Or(u16, u16),
    Only(Role, u16),
    Exists(Role, u16),
}

pub struct Concepts {
    capacity: usize,
    list: Vec<Concept>,
    mates: Vec<u16>,
    axioms: Vec<u16>,
    axiom_label: Label,
    /// For each role the concepts "only that role ..".
    only: Box<[Label; ROLES]>,
}

impl Concepts {
    pub fn new(capacity: usize) -> Self {
        Concepts {
            capacity,
            list: Vec::with_capacity(capacity),
            mates: Vec::with_capacity(capacity),
            axioms: Vec::new(),
            axiom_label: Label::EMPTY,
            only: Box::new([Label::EMPTY; ROLES]),
        }
    }

    #[inline]
    pub fn count(&self) -> usize {
        self.list.len()
    }

    pub fn list(&self) -> &[Concept] {
        &self.list
    }

    #[inline]
    pub fn get(&self, concept: u16) -> Concept {
        self.list[usize::from(concept)]
    }

    /// Refuses a number that doesn't stand.
    #[inline]
    pub fn check(&self, concept: u16, place: usize) -> Result<(), Refusal> {
        if usize::from(concept) < self.list.len() {
            Ok(())
        } else {
            Err(Refusal::not_standing(place))
        }
    }

    pub fn mate(&self, concept: u16) -> Option<u16> {
        let mate = self.mates[usize::from(concept)];
        (mate != NO_MATE).then_some(mate)
    }

    #[inline]
    pub fn are_mates(&self, one: u16, other: u16) -> bool {
        self.mates[usize::from(one)] == other
    }

    pub fn axioms(&self) -> &[u16] {
        &self.axioms
    }

    #[inline]
    pub fn axiom_label(&self) -> &Label {
        &self.axiom_label
    }

    #[inline]
    pub fn only(&self, role: Role) -> &Label {
        &self.only[role.number()]
    }

    pub fn file(&mut self, tag: u16, a: u16, b: u16) -> Result<usize, Refusal> {
        if tag >= TAGS {
            return Err(Refusal::out_of_range(0));
        }
        let concept = match tag {
            0 | 1 => {
                unused(a, 1)?;
                unused(b, 2)?;
                if tag == 0 { Concept::Top } else { Concept::Bottom }
            }
            2 | 3 => {
                if usize::from(a) >= NAMES {
                    return Err(Refusal::out_of_range(1));
                }
                unused(b, 2)?;
                if tag == 2 {
                    Concept::Name(a)
                } else {
                    Concept::NotName(a)
                }
            }
            4 | 5 => {
                self.check(a, 1)?;
                self.check(b, 2)?;
                if tag == 4 {
                    Concept::And(a, b)
                } else {
                    Concept::Or(a, b)
                }
            }
            _ => {
                let role = Role::read(a, 1)?;
                self.check(b, 2)?;
                if tag == 6 {
                    Concept::Only(role, b)
                } else {
                    Concept::Exists(role, b)
                }
            }
        };
        let number = self.list.len();
        if number == self.capacity {
            return Err(Refusal::full(self.capacity));
        }
        if let Concept::Only(role, _) = concept {
            self.only[role.number()].insert(number as u16);
        }
        self.list.push(concept);
        self.mates.push(NO_MATE);
        Ok(number)
    }

    pub fn pair(&mut self, one: u16, other: u16) -> Result<(), Refusal> {
        self.check(one, 0)?;
        self.check(other, 1)?;
        let free = |concept: u16| self.mates[usize::from(concept)] == NO_MATE;
        if !free(one) || !free(other) || !self.are_opposites(one, other) {
            return Err(Refusal::NO_PAIR);
        }
        self.mates[usize::from(one)] = other;
        self.mates[usize::from(other)] = one;
        Ok(())
    }

    fn are_opposites(&self, one: u16, other: u16) -> bool {
        use Concept::*;
        match (self.get(one), self.get(other)) {
            (Top, Bottom) | (Bottom, Top) => true,
            (Name(a), NotName(b)) | (NotName(a), Name(b)) => a == b,
            (And(a, b), Or(c, d)) | (Or(a, b), And(c, d)) => self.are_mates(a, c) && self.are_mates(b, d),
            (Only(r, a), Exists(s, b)) | (Exists(r, a), Only(s, b)) => r == s && self.are_mates(a, b),
            _ => false,
        }
    }

    pub fn file_axiom(&mut self, concept: u16) -> Result<usize, Refusal> {
        self.check(concept, 0)?;
        let number = self.axioms.len();
        if number == AXIOMS {
            return Err(Refusal::full(AXIOMS));
        }
        self.axioms.push(concept);
        self.axiom_label.insert(concept);
        Ok(number)
    }
}

fn unused(number: u16, place: usize) -> Result<(), Refusal> {
    if number == 0 {
        Ok(())
    } else {
        Err(Refusal::out_of_range(place))
    }
}
