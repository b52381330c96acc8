//! What can be seen of a machine after a step.

use second::record::{BANK_SIZE, COUNTER, F_PRIME, LONGS, SHARED, SR};
use std::collections::BTreeMap;
use std::ops::Range;

/// The flags by their bits.
pub const S: u32 = 1 << 7;
pub const Z: u32 = 1 << 6;
pub const H: u32 = 1 << 4;
pub const V: u32 = 1 << 2;

/// The registers as they stand in a record, the counter, SR and F', each as wide
/// as the witness keeps it; the bank whose registers are used; and the bytes of
/// memory that are not as before.
#[derive(Clone, Debug, PartialEq, Eq)]
pub struct Seen {
    pub registers: [u8; COUNTER],
    pub counter: u32,
    pub sr: u32,
    pub spare: u32,
    pub bank: u32,
    pub memory: BTreeMap<u32, u8>,
}

impl Seen {
    pub fn of_record(record: &[u8], memory: BTreeMap<u32, u8>) -> Seen {
        let sr = u32::from(record[SR]) | u32::from(record[SR + 1]) << 8;
        Seen {
            registers: record[..COUNTER].try_into().expect("the registers"),
            counter: draw::aim::get_long(record, COUNTER),
            sr,
            spare: u32::from(record[F_PRIME]),
            bank: sr >> 8 & 3,
            memory,
        }
    }

    pub fn set_flag(&mut self, flag: u32, set: bool) {
        self.sr = if set { self.sr | flag } else { self.sr & !flag };
    }

    /// Each part with its name, as text.
    fn parts(&self) -> Vec<(String, String)> {
        let mut parts = Vec::new();
        for place in (0..COUNTER).step_by(4) {
            let value = draw::aim::get_long(&self.registers, place);
            parts.push((name_of_long(place), format!("{value:08X}")));
        }
        parts.push(("counter".to_string(), format!("{:06X}", self.counter)));
        parts.push(("SR".to_string(), format!("{:04X}", self.sr)));
        parts.push(("F'".to_string(), format!("{:02X}", self.spare)));
        parts.push(("bank".to_string(), format!("{}", self.bank)));
        let bytes = self.memory.iter();
        let bytes = bytes.map(|(address, byte)| format!("{address:06X}:{byte:02X}"));
        parts.push(("memory".to_string(), bytes.collect::<Vec<_>>().join(" ")));
        parts
    }

    /// The parts in which another differs, one a line.
    pub fn differences(&self, ours: &str, other: &Seen, others: &str) -> String {
        let pairs = self.parts().into_iter().zip(other.parts());
        let lines = pairs
            .filter(|(one, two)| one != two)
            .map(|((name, one), (_, two))| format!("  {name}: {ours} {one}, {others} {two}\n"));
        lines.collect()
    }
}

/// The name of the long register that begins at this place of a record, with its
/// bank where it is one of a bank's.
fn name_of_long(place: usize) -> String {
    match place.checked_sub(SHARED) {
        Some(shared) => LONGS[4 + shared / 4].to_string(),
        None => format!("{}{}", LONGS[place % BANK_SIZE / 4], place / BANK_SIZE),
    }
}

/// The value of a register, by its bytes in a record.
pub fn value(registers: &[u8], place: Range<usize>) -> u32 {
    let bytes = registers[place].iter().rev();
    bytes.fold(0, |high, &byte| high << 8 | u32::from(byte))
}
