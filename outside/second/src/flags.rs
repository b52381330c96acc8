//! The six flags, the marks of those that nobody defined, and the sixteen
//! conditions.

/// S, Z, H, V, N and C of one flag register, each as a plain truth. Only H and
/// V can be undefined: then there is no truth in them.
#[derive(Clone, Copy, Debug, PartialEq, Eq)]
pub(crate) struct Flags {
    pub s: bool,
    pub z: bool,
    pub h: Option<bool>,
    pub v: Option<bool>,
    pub n: bool,
    pub c: bool,
}

/// What stands beside a flag register: which of its flags hold a value that
/// nobody defined. Such a flag's bit is 0.
#[derive(Clone, Copy, Debug, Default, PartialEq, Eq)]
pub struct Marks {
    /// H is undefined.
    pub h: bool,
    /// V is undefined.
    pub v: bool,
}

const H: u8 = 0x10;
const V: u8 = 0x04;

impl Marks {
    /// The marks in the lowest two bits: H in bit 0, V in bit 1.
    pub fn from_bits(bits: u8) -> Marks {
        Marks {
            h: bits & 1 != 0,
            v: bits & 2 != 0,
        }
    }

    /// The bits that hold these marks.
    pub fn to_bits(self) -> u8 {
        u8::from(self.h) + 2 * u8::from(self.v)
    }

    /// The bits of the flag register that are marked.
    pub fn flags(self) -> u8 {
        let weigh = |mark: bool, weight: u8| if mark { weight } else { 0 };
        weigh(self.h, H) + weigh(self.v, V)
    }

    /// Whether there is a mark at all.
    pub fn any(self) -> bool {
        self.h || self.v
    }
}

impl Flags {
    /// The flags in a byte, with nothing in those that are marked. Bits 5 and
    /// 3 stand for nothing and are dropped.
    pub fn from_byte(byte: u8, marks: Marks) -> Flags {
        let bit = |weight: u8| byte & weight != 0;
        let unless = |mark: bool, flag: bool| if mark { None } else { Some(flag) };
        Flags {
            s: bit(128),
            z: bit(64),
            h: unless(marks.h, bit(H)),
            v: unless(marks.v, bit(V)),
            n: bit(2),
            c: bit(1),
        }
    }

    /// The byte that holds these flags, bits 5 and 3 zero. An undefined flag is
    /// written 0.
    pub fn to_byte(self) -> u8 {
        let weigh = |flag: bool, weight: u8| if flag { weight } else { 0 };
        weigh(self.s, 128)
            + weigh(self.z, 64)
            + weigh(self.h == Some(true), H)
            + weigh(self.v == Some(true), V)
            + weigh(self.n, 2)
            + weigh(self.c, 1)
    }

    /// The marks that go beside that byte.
    pub fn marks(self) -> Marks {
        Marks {
            h: self.h.is_none(),
            v: self.v.is_none(),
        }
    }
}

/// Whether condition `cc` (0 to 15) is met, or nothing where it reads an
/// undefined V. Each of 8 to 15 is the opposite of the one eight below it, and
/// reads the same flags. LE reads V even where Z alone would decide.
pub(crate) fn condition(cc: u8, flags: Flags) -> Option<bool> {
    let less = || Some(flags.s != flags.v?);
    Some(match cc {
        0 => false,
        1 => less()?,
        2 => less()? || flags.z,
        3 => flags.c || flags.z,
        4 => flags.v?,
        5 => flags.s,
        6 => flags.z,
        7 => flags.c,
        opposite => !condition(opposite - 8, flags)?,
    })
}

#[cfg(test)]
mod tests {
    use super::*;

    /// Every pair of marks, with the bits that a marked flag has.
    const MARKS: [(u8, u8); 4] = [(0, 0x00), (1, 0x10), (2, 0x04), (3, 0x14)];

    #[test]
    fn bits_5_and_3_are_dropped_and_no_other() {
        for byte in 0..=255 {
            let flags = Flags::from_byte(byte, Marks::default());
            assert_eq!(flags.to_byte(), byte & 0xD7);
            assert_eq!(flags.marks(), Marks::default());
        }
    }

    #[test]
    fn a_marked_flag_is_written_0() {
        for (bits, marked) in MARKS {
            let marks = Marks::from_bits(bits);
            assert_eq!((marks.to_bits(), marks.flags()), (bits, marked));
            assert_eq!(marks.any(), bits != 0);
            for byte in 0..=255 {
                let flags = Flags::from_byte(byte, marks);
                assert_eq!(flags.to_byte(), byte & 0xD7 & !marked);
                assert_eq!(flags.marks(), marks);
            }
        }
    }

    /// The conditions that read V, as 000 writes them (lines 5111 to 5135): OV,
    /// LT and LE with their opposites. An undefined H is read by none.
    #[test]
    fn conditions_that_read_an_undefined_v() {
        for byte in (0..=255u8).filter(|byte| byte & 0x3C == 0) {
            let given = |bits| Flags::from_byte(byte, Marks::from_bits(bits));
            for cc in 0..16 {
                let reads_v = matches!(cc, 1 | 2 | 4 | 9 | 10 | 12);
                let known = condition(cc, given(0));
                let unless_read = if reads_v { None } else { known };
                assert_eq!(condition(cc, given(1)), known, "cc {cc}, H");
                assert_eq!(condition(cc, given(2)), unless_read, "cc {cc}, V");
                assert_eq!(condition(cc, given(3)), unless_read, "cc {cc}, both");
            }
        }
    }

    /// Each condition on all sixty-four sets of flags, as 000 writes them
    /// (lines 5111 to 5135).
    #[test]
    fn conditions() {
        for byte in (0..=255u8).filter(|byte| byte & 0x28 == 0) {
            let flags = Flags::from_byte(byte, Marks::default());
            let (s, z) = (byte >> 7 & 1, byte >> 6 & 1);
            let (v, c) = (byte >> 2 & 1, byte & 1);
            let wanted = [
                false,
                s ^ v == 1,
                z | (s ^ v) == 1,
                c | z == 1,
                v == 1,
                s == 1,
                z == 1,
                c == 1,
                true,
                s ^ v == 0,
                z | (s ^ v) == 0,
                c | z == 0,
                v == 0,
                s == 0,
                z == 0,
                c == 0,
            ];
            for (cc, &met) in wanted.iter().enumerate() {
                let answer = condition(cc as u8, flags);
                assert_eq!(answer, Some(met), "cc {cc}, F {byte:02X}");
            }
        }
    }
}
