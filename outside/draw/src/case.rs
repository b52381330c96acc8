//! One call with everything it is given, and its text form.

use crate::image::{hex, unhex, Image};
use second::record::{COUNTER, SR};

/// Which of the seven calls.
#[derive(Clone, Copy, Debug, PartialEq, Eq)]
pub enum Call {
    Reset,
    Step,
    Run(u32),
    Show(u32),
    /// A level and the address of a vector.
    Request(u32, u32),
    Widen,
    Narrow,
}

impl Call {
    /// Whether a record is moved to the other form.
    pub fn moves(self) -> bool {
        matches!(self, Call::Widen | Call::Narrow)
    }
}

/// A call and what it is given. `Show` takes no record. `Widen` and `Narrow` take
/// no memories: the room for what is moved stands where RAM otherwise does.
#[derive(Clone, Debug, PartialEq, Eq)]
pub struct Case {
    pub call: Call,
    pub record: Vec<u8>,
    pub ram: Image,
    pub rom: Image,
}

impl Case {
    /// The whole case in one line, for `--case`.
    pub fn text(&self) -> String {
        let call = match self.call {
            Call::Reset => "reset".to_string(),
            Call::Step => "step".to_string(),
            Call::Run(steps) => format!("run:{steps}"),
            Call::Show(at) => format!("show:{at}"),
            Call::Request(level, vector) => format!("request:{level}:{vector}"),
            Call::Widen => "widen".to_string(),
            Call::Narrow => "narrow".to_string(),
        };
        let (record, ram) = (hex(&self.record), self.ram.text());
        if self.call.moves() {
            return format!("{call} record={record} room={ram}");
        }
        format!("{call} record={record} ram={ram} rom={}", self.rom.text())
    }

    /// The case that [`Case::text`] tells of.
    pub fn parse(text: &str) -> Option<Case> {
        let mut words = text.split_whitespace();
        let call = parse_call(words.next()?)?;
        let mut field = |name: &str| words.next()?.strip_prefix(name)?.strip_prefix('=');
        let record = unhex(field("record")?)?;
        if call.moves() {
            let room = Image::parse(field("room")?)?;
            return Some(Case::of_move(call, record, room));
        }
        Some(Case {
            call,
            record,
            ram: Image::parse(field("ram")?)?,
            rom: Image::parse(field("rom")?)?,
        })
    }

    /// A record to move, and the room for it.
    pub fn of_move(call: Call, record: Vec<u8>, room: Image) -> Case {
        Case {
            call,
            record,
            ram: room,
            rom: Image::zeros(0),
        }
    }

    /// The bytes from the counter on, or from the address to show, or from the
    /// vector on: at most seven, fewer at a memory's end.
    pub fn code(&self) -> &[u8] {
        let at = match self.call {
            Call::Show(at) | Call::Request(_, at) => at as usize,
            _ => match self.record.get(COUNTER..SR) {
                Some(counter) => u32::from_le_bytes(counter.try_into().expect("four")) as usize,
                None => return &[],
            },
        };
        let rom_start = (1usize << 24).saturating_sub(self.rom.len());
        let rest = if at < self.ram.len() {
            &self.ram.bytes[at..]
        } else if (rom_start..rom_start + self.rom.len()).contains(&at) {
            &self.rom.bytes[at - rom_start..]
        } else {
            &[]
        };
        &rest[..rest.len().min(7)]
    }
}

fn parse_call(word: &str) -> Option<Call> {
    let (name, numbers) = word.split_once(':').unwrap_or((word, ""));
    let numbers: Option<Vec<u32>> = numbers
        .split_terminator(':')
        .map(|number| number.parse().ok())
        .collect();
    match (name, &numbers?[..]) {
        ("reset", []) => Some(Call::Reset),
        ("step", []) => Some(Call::Step),
        ("run", &[steps]) => Some(Call::Run(steps)),
        ("show", &[at]) => Some(Call::Show(at)),
        ("request", &[level, vector]) => Some(Call::Request(level, vector)),
        ("widen", []) => Some(Call::Widen),
        ("narrow", []) => Some(Call::Narrow),
        _ => None,
    }
}
