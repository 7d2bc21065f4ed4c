//! The claims and how they are settled.

use crate::labels::Label;
use crate::refusals::Refusal;

pub const CLAIMS: usize = 256;

#[derive(Clone, Copy, PartialEq, Eq, Debug)]
pub enum Settled {
    Open,
    Empty,
    Inhabited,
}

pub struct Claim {
    pub label: Label,
    settled: Settled,
}

#[derive(Default)]
pub struct Claims(Vec<Claim>);

#[derive(Clone, Copy, PartialEq, Eq, Debug, Default)]
pub struct Tally {
    pub open: usize,
    pub empty: usize,
    pub inhabited: usize,
}

impl Claims {
    pub fn file(&mut self, members: &[u8], standing: usize) -> Result<usize, Refusal> {
        let mut label = Label::EMPTY;
        let rising = label.read(members, 0, standing)?;
        let number = self.0.len();
        if number == CLAIMS {
            return Err(Refusal::full(CLAIMS));
        }
        rising?;
        self.0.push(Claim {
            label,
            settled: Settled::Open,
        });
        Ok(number)
    }

    pub fn get(&mut self, number: u16) -> Result<&mut Claim, Refusal> {
        self.0.get_mut(usize::from(number)).ok_or(Refusal::not_standing(0))
    }

    pub fn tally(&self) -> Tally {
        let mut tally = Tally::default();
        for claim in &self.0 {
            match claim.settled {
                Settled::Open => tally.open += 1,
                Settled::Empty => tally.empty += 1,
                Settled::Inhabited => tally.inhabited += 1,
            }
        }
        tally
    }
}

impl Claim {
    pub fn is_open(&self) -> bool {
        self.settled == Settled::Open
    }

    pub fn settle(&mut self, settled: Settled) {
        self.settled = settled;
    }
}
