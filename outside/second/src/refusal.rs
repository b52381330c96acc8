//! Why a step was refused, and where.

/// A number, and the address that goes with it: K3 gives one to 5 and 6. With
/// any other number it is 0.
#[derive(Clone, Copy, Debug, PartialEq, Eq)]
pub(crate) struct Refusal {
    pub number: u8,
    pub at: u32,
}

/// A number that has no address.
impl From<u8> for Refusal {
    fn from(number: u8) -> Refusal {
        Refusal { number, at: 0 }
    }
}
