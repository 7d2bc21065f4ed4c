//! The ten rules: when a step applies, and what it concludes.

use crate::concepts::{Concept, Concepts};
use crate::labels::Label;
use crate::roles::Roles;

const CITED: [u8; 11] = [0, 0, 0, 1, 2, 1, 1, 2, 2, 2, 1];

/// How many lines a rule cites; none if there is no such rule.
#[inline]
pub fn cited(rule: u16) -> Option<u8> {
    match rule {
        1..=10 => Some(CITED[usize::from(rule)]),
        _ => None,
    }
}

#[derive(Clone, Copy, Debug)]
pub struct Step {
    pub rule: u16,
    pub p: u16,
    pub q: u16,
    pub s: u16,
}

/// Two concepts that join the label in a conclusion; the same twice where it is one.
pub type More = [u16; 2];

pub enum Conclusions {
    None,
    /// The label and more.
    One(More),
    /// The label and more, and the label and other more.
    Two(More, More),
    /// A label of its own.
    Own(Label),
}

/// What a step concludes from a label, or nothing if it doesn't apply. Its principals and the label's members stand.
#[inline]
pub fn conclude(roles: &Roles, concepts: &Concepts, step: Step, label: &Label) -> Option<Conclusions> {
    let Step { rule, p, q, s } = step;
    let lone = q == 0 && s == 0;
    match rule {
        1 => (lone && label.has(p) && concepts.get(p) == Concept::Bottom).then_some(Conclusions::None),
        2 => (s == 0 && label.has(p) && label.has(q) && concepts.are_mates(p, q)).then_some(Conclusions::None),
        3 => match concepts.get(p) {
            Concept::And(c, d) if lone && label.has(p) => Some(Conclusions::One([c, d])),
            _ => None,
        },
        4 => match concepts.get(p) {
            Concept::Or(c, d) if lone && label.has(p) => Some(Conclusions::Two([c, c], [d, d])),
            _ => None,
        },
        5 => match (concepts.get(p), concepts.get(q)) {
            (Concept::Only(upper, c), Concept::Only(lower, d))
                if s == 0 && c == d && label.has(p) && roles.is_below(lower, upper) =>
            {
                Some(Conclusions::One([q, q]))
            }
            _ => None,
        },
        6 => (lone && concepts.axiom_label().has(p)).then_some(Conclusions::One([p, p])),
        7 => (s == 0 && concepts.are_mates(p, q)).then_some(Conclusions::Two([p, p], [q, q])),
        8 => {
            if !concepts.are_mates(p, q) {
                return None;
            }
            let Concept::Only(role, inner) = concepts.get(s) else {
                return None;
            };
            (concepts.get(inner) == Concept::Exists(role.inverse(), q)).then_some(cut(step))
        }
        9 => match concepts.get(p) {
            Concept::Only(role, _)
                if roles.is_transitive(role)
                    && concepts.are_mates(p, q)
                    && concepts.get(s) == Concept::Only(role.inverse(), q) =>
            {
                Some(cut(step))
            }
            _ => None,
        },
        10 => match concepts.get(p) {
            Concept::Exists(role, inner) if lone && label.has(p) => {
                let mut neighbour = concepts.axiom_label().with([inner, inner]);
                for only in label.meet(concepts.only(role)).iter() {
                    if let Concept::Only(_, part) = concepts.get(only) {
                        neighbour.insert(part);
                    }
                }
                for upper in roles.transitive_above(role) {
                    neighbour.join(&label.meet(concepts.only(upper)));
                }
                Some(Conclusions::Own(neighbour))
            }
            _ => None,
        },
        _ => None,
    }
}

fn cut(Step { p, q, s, .. }: Step) -> Conclusions {
    Conclusions::Two([p, p], [q, s])
}
