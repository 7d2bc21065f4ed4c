//! The docket and its calls. Each call checks in the order of the table of refusals and writes last.

use crate::book::Book;
use crate::claims::{Claims, Settled, Tally};
use crate::concepts::Concepts;
use crate::models::Workspace;
use crate::reader::field;
use crate::refusals::{Answer, Refusal};
use crate::roles::{Role, RoleAxiom, Roles};

pub struct Docket {
    roles: Roles,
    concepts: Concepts,
    book: Book,
    claims: Claims,
    sealed: bool,
    /// Made with the first model.
    workspace: Option<Workspace>,
}

impl Docket {
    pub fn new(concepts: usize, lines: usize) -> Self {
        Docket {
            roles: Roles::default(),
            concepts: Concepts::new(concepts),
            book: Book::new(lines),
            claims: Claims::default(),
            sealed: false,
            workspace: None,
        }
    }

    pub fn roles(&self) -> &Roles {
        &self.roles
    }

    pub fn concepts(&self) -> &Concepts {
        &self.concepts
    }

    pub fn book(&self) -> &Book {
        &self.book
    }

    pub fn tally(&self) -> Tally {
        self.claims.tally()
    }

    /// Hands a record to its call. The reader saw to it that the body has a length of its kind.
    #[inline]
    pub fn take(&mut self, kind: u16, body: &[u8]) -> Answer {
        match kind {
            1 => self.file_inclusion(field(body, 0), field(body, 1)),
            2 => self.file_transitivity(field(body, 0)),
            3 => self.file_concept(field(body, 0), field(body, 1), field(body, 2)),
            4 => self.pair(field(body, 0), field(body, 1)),
            5 => self.file_axiom(field(body, 0)),
            6 => self.seal(),
            7 => self.file_line(body),
            8 => self.file_claim(body),
            9 => self.close_empty(field(body, 0), field(body, 1)),
            _ => self.close_inhabited(body),
        }
    }

    fn before_the_seal(&self) -> Result<(), Refusal> {
        if self.sealed { Err(Refusal::WRONG_PHASE) } else { Ok(()) }
    }

    fn behind_the_seal(&self) -> Result<(), Refusal> {
        if self.sealed { Ok(()) } else { Err(Refusal::WRONG_PHASE) }
    }

    pub fn file_inclusion(&mut self, lower: u16, upper: u16) -> Answer {
        self.before_the_seal()?;
        let axiom = RoleAxiom::Below(Role::read(lower, 0)?, Role::read(upper, 1)?);
        Ok(self.roles.file(axiom)? as u32)
    }

    pub fn file_transitivity(&mut self, role: u16) -> Answer {
        self.before_the_seal()?;
        let axiom = RoleAxiom::Transitive(Role::read(role, 0)?);
        Ok(self.roles.file(axiom)? as u32)
    }

    pub fn file_concept(&mut self, tag: u16, a: u16, b: u16) -> Answer {
        Ok(self.concepts.file(tag, a, b)? as u32)
    }

    pub fn pair(&mut self, one: u16, other: u16) -> Answer {
        self.concepts.pair(one, other)?;
        Ok(0)
    }

    pub fn file_axiom(&mut self, concept: u16) -> Answer {
        self.before_the_seal()?;
        Ok(self.concepts.file_axiom(concept)? as u32)
    }

    pub fn seal(&mut self) -> Answer {
        self.before_the_seal()?;
        self.sealed = true;
        Ok(0)
    }

    pub fn file_line(&mut self, body: &[u8]) -> Answer {
        self.behind_the_seal()?;
        Ok(self.book.file(&self.roles, &self.concepts, body)? as u32)
    }

    pub fn file_claim(&mut self, members: &[u8]) -> Answer {
        self.behind_the_seal()?;
        Ok(self.claims.file(members, self.concepts.count())? as u32)
    }

    pub fn close_empty(&mut self, number: u16, line: u16) -> Answer {
        self.behind_the_seal()?;
        let claim = self.claims.get(number)?;
        let line = self.book.line(line, 1)?;
        if !claim.is_open() {
            return Err(Refusal::closed(usize::from(number)));
        }
        if let Some(concept) = line.least_outside(&claim.label) {
            return Err(Refusal::outside_claim(usize::from(concept)));
        }
        claim.settle(Settled::Empty);
        Ok(0)
    }

    pub fn close_inhabited(&mut self, body: &[u8]) -> Answer {
        self.behind_the_seal()?;
        let number = field(body, 0);
        let claim = self.claims.get(number)?;
        if !claim.is_open() {
            return Err(Refusal::closed(usize::from(number)));
        }
        self.workspace
            .get_or_insert_with(Workspace::new)
            .judge(&self.roles, &self.concepts, body, &claim.label)?;
        claim.settle(Settled::Inhabited);
        Ok(0)
    }
}
