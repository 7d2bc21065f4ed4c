//! Roles, the list of role axioms, and what is below what.

use crate::refusals::Refusal;

pub const ROLES: usize = 128;
pub const ROLE_AXIOMS: usize = 256;

#[derive(Clone, Copy, PartialEq, Eq, Debug)]
pub struct Role(u8);

impl Role {
    #[inline]
    pub fn new(number: u16) -> Option<Role> {
        (usize::from(number) < ROLES).then_some(Role(number as u8))
    }

    /// The role of this number, or a refusal at this place.
    #[inline]
    pub fn read(number: u16, place: usize) -> Result<Role, Refusal> {
        Role::new(number).ok_or(Refusal::out_of_range(place))
    }

    #[inline]
    pub fn inverse(self) -> Role {
        Role(self.0 ^ 1)
    }

    #[inline]
    pub fn name(self) -> usize {
        usize::from(self.0 >> 1)
    }

    #[inline]
    pub fn is_inverse(self) -> bool {
        self.0 & 1 == 1
    }

    #[inline]
    pub fn number(self) -> usize {
        usize::from(self.0)
    }
}

#[derive(Clone, Copy, Debug)]
pub enum RoleAxiom {
    Below(Role, Role),
    Transitive(Role),
}

pub struct Roles {
    axioms: Vec<RoleAxiom>,
    /// Bit s of `above[r]`: role r is below role s. Closed at every time.
    above: [u128; ROLES],
    /// The same turned round: bit r of `below[s]`.
    below: [u128; ROLES],
    /// Closed under inverses.
    transitive: u128,
}

impl Default for Roles {
    fn default() -> Self {
        Roles {
            axioms: Vec::new(),
            above: std::array::from_fn(|role| 1 << role),
            below: std::array::from_fn(|role| 1 << role),
            transitive: 0,
        }
    }
}

impl Roles {
    pub fn axioms(&self) -> &[RoleAxiom] {
        &self.axioms
    }

    #[inline]
    pub fn is_below(&self, lower: Role, upper: Role) -> bool {
        self.above[lower.number()] >> upper.0 & 1 == 1
    }

    #[inline]
    pub fn is_transitive(&self, role: Role) -> bool {
        self.transitive >> role.0 & 1 == 1
    }

    /// The transitive roles that `role` is below.
    pub fn transitive_above(&self, role: Role) -> impl Iterator<Item = Role> + use<> {
        roles_of(self.above[role.number()] & self.transitive)
    }

    pub fn file(&mut self, axiom: RoleAxiom) -> Result<usize, Refusal> {
        let number = self.axioms.len();
        if number == ROLE_AXIOMS {
            return Err(Refusal::full(ROLE_AXIOMS));
        }
        self.axioms.push(axiom);
        match axiom {
            RoleAxiom::Below(lower, upper) => {
                self.include(lower, upper);
                self.include(lower.inverse(), upper.inverse());
            }
            RoleAxiom::Transitive(role) => self.transitive |= 1 << role.0 | 1 << role.inverse().0,
        }
        Ok(number)
    }

    /// Whatever is below `lower` comes below all that `upper` is below; in a closed table one pass does it.
    fn include(&mut self, lower: Role, upper: Role) {
        if self.is_below(lower, upper) {
            return;
        }
        let (lowers, uppers) = (self.below[lower.number()], self.above[upper.number()]);
        for role in roles_of(lowers) {
            self.above[role.number()] |= uppers;
        }
        for role in roles_of(uppers) {
            self.below[role.number()] |= lowers;
        }
    }
}

fn roles_of(mut set: u128) -> impl Iterator<Item = Role> {
    std::iter::from_fn(move || {
        (set != 0).then(|| {
            let role = Role(set.trailing_zeros() as u8);
            set &= set - 1;
            role
        })
    })
}
