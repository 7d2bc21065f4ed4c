//! The lines.

use crate::concepts::Concepts;
use crate::labels::Label;
use crate::reader::field;
use crate::refusals::Refusal;
use crate::roles::Roles;
use crate::rules::{self, Conclusions, Step};

pub struct Book {
    capacity: usize,
    lines: Vec<Label>,
}

impl Book {
    pub fn new(capacity: usize) -> Self {
        Book {
            capacity,
            lines: Vec::with_capacity(capacity),
        }
    }

    pub fn lines(&self) -> &[Label] {
        &self.lines
    }

    /// The label of a standing line.
    #[inline]
    pub fn line(&self, number: u16, place: usize) -> Result<&Label, Refusal> {
        self.lines.get(usize::from(number)).ok_or(Refusal::not_standing(place))
    }

    /// Files the line of a record's body: rule, p, q, s, m, n and the members.
    pub fn file(&mut self, roles: &Roles, concepts: &Concepts, body: &[u8]) -> Result<usize, Refusal> {
        let step = Step {
            rule: field(body, 0),
            p: field(body, 1),
            q: field(body, 2),
            s: field(body, 3),
        };
        let (m, n) = (field(body, 4), field(body, 5));
        let cited = rules::cited(step.rule).ok_or(Refusal::out_of_range(0))?;
        if cited < 1 && m != 0 {
            return Err(Refusal::out_of_range(4));
        }
        if cited < 2 && n != 0 {
            return Err(Refusal::out_of_range(5));
        }
        concepts.check(step.p, 1)?;
        concepts.check(step.q, 2)?;
        concepts.check(step.s, 3)?;
        if cited >= 1 {
            self.line(m, 4)?;
        }
        if cited >= 2 {
            self.line(n, 5)?;
        }
        let mut label = Label::EMPTY;
        let rising = label.read(&body[12..], 6, concepts.count())?;
        let number = self.lines.len();
        if number == self.capacity {
            return Err(Refusal::full(self.capacity));
        }
        rising?;
        match rules::conclude(roles, concepts, step, &label) {
            None => return Err(Refusal::does_not_apply(usize::from(step.rule))),
            Some(Conclusions::None) => {}
            Some(Conclusions::Own(conclusion)) => self.fits(m, &conclusion)?,
            Some(Conclusions::One(more)) => self.fits(m, &label.with(more))?,
            Some(Conclusions::Two(more, other)) => {
                self.fits(m, &label.with(more))?;
                self.fits(n, &label.with(other))?;
            }
        }
        self.lines.push(label);
        Ok(number)
    }

    #[inline]
    fn fits(&self, line: u16, conclusion: &Label) -> Result<(), Refusal> {
        match self.lines[usize::from(line)].least_outside(conclusion) {
            None => Ok(()),
            Some(concept) => Err(Refusal::unfit(usize::from(concept))),
        }
    }
}
