//! Sets of concepts as rows of bits.

use crate::refusals::Refusal;

const WORDS: usize = 16;

#[derive(Clone, Copy, PartialEq, Eq, Debug)]
pub struct Label([u64; WORDS]);

impl Label {
    pub const EMPTY: Label = Label([0; WORDS]);

    // Concepts are below 1,024: the mask changes nothing and saves the check of the index.
    #[inline]
    pub fn insert(&mut self, concept: u16) {
        self.0[(concept >> 6) as usize % WORDS] |= 1 << (concept & 63);
    }

    #[inline]
    pub fn has(&self, concept: u16) -> bool {
        self.0[(concept >> 6) as usize % WORDS] >> (concept & 63) & 1 == 1
    }

    #[inline]
    pub fn with(mut self, [one, other]: [u16; 2]) -> Label {
        self.insert(one);
        self.insert(other);
        self
    }

    #[inline]
    pub fn join(&mut self, other: &Label) {
        for (word, more) in self.0.iter_mut().zip(&other.0) {
            *word |= more;
        }
    }

    #[inline]
    pub fn meet(&self, other: &Label) -> Label {
        let mut both = *self;
        for (word, more) in both.0.iter_mut().zip(&other.0) {
            *word &= more;
        }
        both
    }

    #[inline]
    pub fn is_within(&self, other: &Label) -> bool {
        // All words without a branch, which goes by vectors.
        let outside = self
            .0
            .iter()
            .zip(&other.0)
            .fold(0, |outside, (word, of)| outside | word & !of);
        outside == 0
    }

    /// The least concept of this label that `other` has not.
    #[inline]
    pub fn least_outside(&self, other: &Label) -> Option<u16> {
        if self.is_within(other) {
            return None;
        }
        let (at, word) = (0..WORDS)
            .map(|at| (at, self.0[at] & !other.0[at]))
            .find(|(_, word)| *word != 0)?;
        Some(at as u16 * 64 + word.trailing_zeros() as u16)
    }

    /// Reads a list of members into an empty label. A member that doesn't stand is refused before all else; what is
    /// handed back is whether they rise, which comes later. `first` is the position of the first member in the record.
    #[inline]
    pub fn read(&mut self, members: &[u8], first: usize, standing: usize) -> Result<Result<(), Refusal>, Refusal> {
        let mut least_next = 0;
        let mut rising = true;
        for member in numbers(members) {
            rising &= usize::from(member) >= least_next;
            least_next = usize::from(member) + 1;
            self.insert(member);
        }
        // If they rise, the last one is the greatest.
        if rising && least_next <= standing {
            return Ok(Ok(()));
        }
        if let Some(at) = numbers(members).position(|member| usize::from(member) >= standing) {
            return Err(Refusal::not_standing(first + at));
        }
        let falls = numbers(members)
            .zip(numbers(members).skip(1))
            .position(|(one, next)| next <= one);
        Ok(falls.map_or(Ok(()), |at| Err(Refusal::not_rising(first + at + 1))))
    }

    /// The concepts in rising order.
    #[inline]
    pub fn iter(&self) -> impl Iterator<Item = u16> + '_ {
        self.0.iter().enumerate().flat_map(|(at, &word)| {
            let mut left = word;
            std::iter::from_fn(move || {
                (left != 0).then(|| {
                    let bit = left.trailing_zeros() as u16;
                    left &= left - 1;
                    at as u16 * 64 + bit
                })
            })
        })
    }
}

#[inline]
fn numbers(members: &[u8]) -> impl Iterator<Item = u16> + '_ {
    members
        .chunks_exact(2)
        .map(|number| u16::from_le_bytes([number[0], number[1]]))
}
