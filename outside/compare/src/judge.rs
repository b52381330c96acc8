//! Both machines do the same call; whatever differs is printed whole.

use crate::reference;
use draw::case::{Call, Case};
use draw::image::hex;
use library::{Empty, Library};
use second::record::{
    self, BANK, BANK_SIZE, COUNTER, F, F_PRIME, LONGS, MARKS, NESTING, SHARED, SR,
};
use second::Width;

/// Bytes on each side of what is lent to the library, which it must not
/// touch.
const GUARD: usize = 16;
const GUARD_BYTE: u8 = 0xA5;

/// How many disagreements a group prints before it gives up.
const MOST_PRINTED: u32 = 5;
/// How many differing bytes of RAM are printed.
const MOST_BYTES_PRINTED: usize = 16;

/// A copy of some bytes between two guards.
#[derive(Default)]
struct Guarded(Vec<u8>);

impl Guarded {
    fn load(&mut self, bytes: &[u8]) {
        self.0.clear();
        self.0.resize(GUARD, GUARD_BYTE);
        self.0.extend_from_slice(bytes);
        self.0.resize(bytes.len() + 2 * GUARD, GUARD_BYTE);
    }

    fn lent(&mut self) -> &mut [u8] {
        let end = self.0.len() - GUARD;
        &mut self.0[GUARD..end]
    }

    fn bytes(&self) -> &[u8] {
        &self.0[GUARD..self.0.len() - GUARD]
    }

    fn intact(&self) -> bool {
        let (front, rest) = self.0.split_at(GUARD);
        let back = &rest[rest.len() - GUARD..];
        front == [GUARD_BYTE; GUARD] && back == [GUARD_BYTE; GUARD]
    }
}

/// What a call answered. The count is the steps of a run and the length of
/// what is shown, and 1 for a request that was taken; the address is a step's,
/// a run's or a request's. A call that has no count, or no address, has 0
/// there.
#[derive(Clone, Copy, Debug, PartialEq, Eq)]
pub struct Answer {
    pub count: u32,
    pub number: u8,
    pub at: u32,
}

impl Answer {
    /// The answer that is a number alone, as that of a reset.
    pub fn number(number: u8) -> Answer {
        Answer::counted((0, number))
    }

    /// The answer of a step.
    pub fn step((number, at): (u8, u32)) -> Answer {
        Answer::run((0, number, at))
    }

    /// The answer of a run.
    pub fn run((count, number, at): (u32, u8, u32)) -> Answer {
        Answer { count, number, at }
    }

    /// The answer of a request.
    pub fn request((taken, number, at): (u8, u8, u32)) -> Answer {
        Answer::run((u32::from(taken), number, at))
    }

    /// The answer that has no address, as that of a show.
    pub fn counted((count, number): (u32, u8)) -> Answer {
        Answer::run((count, number, 0))
    }
}

/// What became of the records that were moved one way.
#[derive(Clone, Copy, Debug, Default)]
pub struct Moves {
    pub done: u64,
    /// Those refused with 2.
    pub bad: u64,
    /// Those refused with 10.
    pub unheld: u64,
}

impl Moves {
    pub fn all(self) -> u64 {
        self.done + self.bad + self.unheld
    }

    fn and(self, other: Moves) -> Moves {
        Moves {
            done: self.done + other.done,
            bad: self.bad + other.bad,
            unheld: self.unheld + other.unheld,
        }
    }

    fn add(&mut self, number: u8) {
        match number {
            0 => self.done += 1,
            10 => self.unheld += 1,
            _ => self.bad += 1,
        }
    }
}

/// What has been compared.
#[derive(Clone, Copy, Debug, Default)]
pub struct Tally {
    /// Calls of `step`, each compared by itself.
    pub single: u64,
    /// Calls of `run`.
    pub runs: u64,
    /// Calls of `request`.
    pub requests: u64,
    /// Requests that were taken.
    pub taken: u64,
    /// Requests that were not taken, and not refused.
    pub left: u64,
    /// Old records moved to the new form.
    pub widened: Moves,
    /// Records moved back.
    pub narrowed: Moves,
    /// Other calls.
    pub others: u64,
    /// Steps that the library did, by either call.
    pub done: u64,
    /// How often each number was answered.
    pub met: [u64; 11],
}

impl Tally {
    /// What two groups compared.
    pub fn and(mut self, other: Tally) -> Tally {
        self.single += other.single;
        self.runs += other.runs;
        self.requests += other.requests;
        self.taken += other.taken;
        self.left += other.left;
        self.widened = self.widened.and(other.widened);
        self.narrowed = self.narrowed.and(other.narrowed);
        self.others += other.others;
        self.done += other.done;
        for (met, more) in self.met.iter_mut().zip(other.met) {
            *met += more;
        }
        self
    }

    /// How many records were to be moved, either way.
    pub fn moves(&self) -> u64 {
        self.widened.and(self.narrowed).all()
    }

    fn add(&mut self, call: Call, answer: Answer) {
        match call {
            Call::Step => {
                self.single += 1;
                self.done += u64::from(answer.number == 0);
            }
            Call::Run(_) => {
                self.runs += 1;
                self.done += u64::from(answer.count);
            }
            Call::Request(..) => {
                self.requests += 1;
                let done = answer.number == 0;
                self.taken += u64::from(done && answer.count == 1);
                self.left += u64::from(done && answer.count == 0);
            }
            Call::Widen => self.widened.add(answer.number),
            Call::Narrow => self.narrowed.add(answer.number),
            Call::Reset | Call::Show(_) => self.others += 1,
        }
        if let Some(met) = self.met.get_mut(usize::from(answer.number)) {
            *met += 1;
        }
    }
}

pub struct Judge {
    library: Library,
    /// What the library works on.
    record: Guarded,
    ram: Guarded,
    rom: Guarded,
    /// What the second interpreter works on.
    other_record: Vec<u8>,
    other_ram: Vec<u8>,
    pub tally: Tally,
    /// How much went wrong in this group.
    pub failures: u32,
}

impl Judge {
    pub fn new() -> Judge {
        Judge {
            library: Library {
                empty: Empty::Dangling,
            },
            record: Guarded::default(),
            ram: Guarded::default(),
            rom: Guarded::default(),
            other_record: Vec::new(),
            other_ram: Vec::new(),
            tally: Tally::default(),
            failures: 0,
        }
    }

    /// From now on an empty slice is handed to the library as this.
    pub fn hand_empty_as(&mut self, empty: Empty) {
        self.library.empty = empty;
    }

    /// Whether the group should stop: it has printed enough.
    pub fn weary(&self) -> bool {
        self.failures >= MOST_PRINTED
    }

    /// Both machines do the case. What the library answered is given back;
    /// a disagreement is printed and counted.
    pub fn hold(&mut self, case: &Case) -> Answer {
        let (answer, other) = self.both(case);
        self.tally.add(case.call, answer);
        if !self.agree(case, answer, other) {
            self.failures += 1;
            if self.failures <= MOST_PRINTED {
                self.look_into(case);
                // What the call left is wanted, not what the search left.
                self.both(case);
            }
        }
        answer
    }

    /// As [`Judge::hold`]; the case then takes what the call left.
    pub fn hold_and_carry(&mut self, case: &mut Case) -> Answer {
        let answer = self.hold(case);
        self.carry(case);
        answer
    }

    /// A case takes what the last call left.
    pub fn carry(&self, case: &mut Case) {
        case.record.copy_from_slice(self.record.bytes());
        case.ram.bytes.copy_from_slice(self.ram.bytes());
    }

    /// What the last call left: the record and RAM.
    pub fn left(&self) -> (&[u8], &[u8]) {
        (self.record.bytes(), self.ram.bytes())
    }

    /// Counts and prints a failure that is not one of the two machines
    /// differing.
    pub fn expect(&mut self, right: bool, what: impl FnOnce() -> String) {
        if !right {
            self.failures += 1;
            if self.failures <= MOST_PRINTED {
                println!("WRONG: {}", what());
            }
        }
    }

    fn both(&mut self, case: &Case) -> (Answer, Answer) {
        self.record.load(&case.record);
        self.ram.load(&case.ram.bytes);
        self.rom.load(&case.rom.bytes);
        let (record, ram, rom) = (self.record.lent(), self.ram.lent(), self.rom.bytes());
        let answer = match case.call {
            Call::Reset => Answer::number(self.library.reset(record, ram, rom)),
            Call::Step => Answer::step(self.library.step(record, ram, rom)),
            Call::Run(steps) => Answer::run(self.library.run(record, ram, rom, steps)),
            Call::Show(at) => Answer::counted(self.library.show(ram, rom, at)),
            Call::Request(level, vector) => {
                Answer::request(self.library.request(record, ram, rom, level, vector))
            }
            Call::Widen => Answer::number(self.library.widen(record, ram)),
            Call::Narrow => Answer::number(self.library.narrow(record, ram)),
        };

        self.other_record.clone_from(&case.record);
        self.other_ram.clone_from(&case.ram.bytes);
        let other = reference::call(
            case.call,
            &mut self.other_record,
            &mut self.other_ram,
            &case.rom.bytes,
        );
        (answer, other)
    }

    fn agree(&self, case: &Case, answer: Answer, other: Answer) -> bool {
        answer == other
            && self.record.bytes() == self.other_record
            && self.ram.bytes() == self.other_ram
            && self.rom.bytes() == case.rom.bytes
            && self.record.intact()
            && self.ram.intact()
            && self.rom.intact()
    }

    /// Prints a disagreement. In a run, the first step that differs is
    /// looked for; it says more than the whole run.
    fn look_into(&mut self, case: &Case) {
        // Other groups print nothing in the middle of it.
        let _whole = std::io::stdout().lock();
        let steps = match case.call {
            Call::Run(steps) if steps <= second::MOST_STEPS => steps,
            _ => return self.print(case),
        };
        let (mut same, mut differs) = (0, steps);
        while same + 1 < differs {
            let middle = same + (differs - same) / 2;
            if self.runs_agree(case, middle) {
                same = middle;
            } else {
                differs = middle;
            }
        }
        let mut one = case.clone();
        if self.runs_agree(case, same) {
            self.carry(&mut one);
        }
        one.call = Call::Step;
        let (answer, other) = self.both(&one);
        if self.agree(&one, answer, other) {
            one = case.clone();
            one.call = Call::Run(differs);
        } else {
            println!("In step {differs} of a run of {steps} they");
        }
        self.print(&one);
    }

    fn runs_agree(&mut self, case: &Case, steps: u32) -> bool {
        let mut shorter = case.clone();
        shorter.call = Call::Run(steps);
        let (answer, other) = self.both(&shorter);
        self.agree(&shorter, answer, other)
    }

    /// Does a case once more and prints all there is to know about it.
    pub fn print(&mut self, case: &Case) {
        let (answer, other) = self.both(case);
        println!("DISAGREE");
        println!("  --case '{}'", case.text());
        match case.call {
            Call::Widen | Call::Narrow => {}
            Call::Request(..) => println!("  vector:  {}", spaced(case.code())),
            _ => println!("  code:    {}", spaced(case.code())),
        }
        let ours = written(case.call, self.record.bytes(), self.ram.bytes());
        println!("  library: {}", told(case.call, answer, ours));
        let others = written(case.call, &self.other_record, &self.other_ram);
        println!("  second:  {}", told(case.call, other, others));
        for (place, ours, others) in differing(self.record.bytes(), &self.other_record) {
            let name = field(place);
            println!("  {name}: library {ours:02X}, second {others:02X}");
        }
        for (place, ours, others) in differing(self.ram.bytes(), &self.other_ram) {
            let name = match case.call.moves() {
                true => format!("the room's {}", field(place)),
                false => format!("RAM {place:04X}"),
            };
            println!("  {name}: library {ours:02X}, second {others:02X}");
        }
        if self.rom.bytes() != case.rom.bytes {
            println!("  the library changed ROM");
        }
        if !(self.record.intact() && self.ram.intact() && self.rom.intact()) {
            println!("  the library wrote beside what it was lent");
        }
    }

    /// Does a case, prints both answers, and says whether they agree.
    pub fn replay(&mut self, case: &Case) -> bool {
        let (answer, other) = self.both(case);
        if self.agree(case, answer, other) {
            let ours = written(case.call, self.record.bytes(), self.ram.bytes());
            println!("both:      {}", told(case.call, answer, ours));
            return true;
        }
        self.look_into(case);
        false
    }
}

/// The first bytes that differ: where, and both.
fn differing<'a>(ours: &'a [u8], others: &'a [u8]) -> impl Iterator<Item = (usize, u8, u8)> + 'a {
    let pairs = ours.iter().zip(others).enumerate();
    pairs
        .filter(|(_, (ours, others))| ours != others)
        .map(|(place, (&ours, &others))| (place, ours, others))
        .take(MOST_BYTES_PRINTED)
}

/// What a byte of a record belongs to.
fn field(place: usize) -> String {
    match place {
        F => "F".to_string(),
        BANK => "bank and level".to_string(),
        F_PRIME => "F'".to_string(),
        MARKS => "marks".to_string(),
        _ if (NESTING..MARKS).contains(&place) => {
            format!("byte {} of the nesting count", place - NESTING)
        }
        _ if place < COUNTER => register_at(place),
        _ if place < SR => format!("byte {} of the counter", place - COUNTER),
        _ => format!("byte {place} of the record"),
    }
}

fn register_at(place: usize) -> String {
    let bank = place / BANK_SIZE;
    let holds = |code: &u8| record::register(Width::Long, *code, bank as u8).contains(&place);
    let code = (0..8).find(holds).expect("a register's byte");
    let first = record::register(Width::Long, code, bank as u8).start;
    let told = format!("byte {} of {}", place - first, LONGS[usize::from(code)]);
    if place < SHARED {
        format!("{told} of bank {bank}")
    } else {
        told
    }
}

/// Where a call leaves a record: a move does not write the one that it is given.
fn written<'a>(call: Call, record: &'a [u8], ram: &'a [u8]) -> &'a [u8] {
    if call.moves() {
        ram
    } else {
        record
    }
}

fn told(call: Call, answer: Answer, record: &[u8]) -> String {
    let Answer { count, number, at } = answer;
    let record = hex(record);
    let counted = match call {
        Call::Request(..) => "taken",
        _ => "count",
    };
    format!("number {number}, address {at:06X}, {counted} {count}, record {record}")
}

fn spaced(bytes: &[u8]) -> String {
    let words: Vec<String> = bytes.iter().map(|byte| format!("{byte:02X}")).collect();
    words.join(" ")
}
