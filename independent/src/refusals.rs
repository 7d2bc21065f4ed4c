//! The fifteen refusals, each with its place.

#[derive(Clone, Copy, PartialEq, Eq, Debug)]
pub struct Refusal {
    pub number: u8,
    pub place: u32,
}

/// What a call answers: the number of the new entry (0 where there is none), or the first refusal met.
pub type Answer = Result<u32, Refusal>;

const fn refusal(number: u8, place: usize) -> Refusal {
    Refusal {
        number,
        place: place as u32,
    }
}

macro_rules! refusals {
    ($($number:literal $name:ident)*) => {
        impl Refusal {
            $(pub const fn $name(place: usize) -> Refusal { refusal($number, place) })*
        }
    };
}

refusals! {
    1 malformed
    3 out_of_range
    4 not_standing
    5 full
    6 not_rising
    8 does_not_apply
    9 unfit
    10 closed
    11 outside_claim
    12 ill_formed_model
    13 breaks_role_axiom
    14 misses_axiom
    15 misses_member
}

impl Refusal {
    pub const WRONG_PHASE: Refusal = refusal(2, 0);
    pub const NO_PAIR: Refusal = refusal(7, 0);
}
