//! The second interpreter behind the same seven calls as the library.
//!
//! A state crosses as its record. 7 is looked for first, then 1, then 2 for
//! a record that is no state's; a refusal leaves the record and RAM alone.

use crate::judge::Answer;
use draw::case::Call;
use second::record::LENGTH;
use second::{number, Machine, MOST_BYTES, MOST_STEPS};

/// Does a call on a record and memories, and gives its answer.
pub fn call(call: Call, record: &mut [u8], ram: &mut [u8], rom: &[u8]) -> Answer {
    match call {
        Call::Reset => Answer::number(reset(record, ram, rom)),
        Call::Step => on_state(record, ram, rom, |machine, ram| {
            Answer::step(second::step(machine, ram, rom))
        }),
        Call::Run(steps) if steps > MOST_STEPS => Answer::number(number::TOO_MANY),
        Call::Run(steps) => on_state(record, ram, rom, |machine, ram| {
            Answer::run(second::run(machine, ram, rom, steps))
        }),
        Call::Show(at) => {
            let (bytes, number) = second::show(ram, rom, at);
            Answer::counted((bytes.len() as u32, number))
        }
        Call::Request(level, vector) => on_state(record, ram, rom, |machine, ram| {
            let (taken, number, at) = second::request(machine, ram, rom, level, vector);
            Answer::request((u8::from(taken), number, at))
        }),
        Call::Widen => Answer::number(second::widen(record, ram)),
        Call::Narrow => Answer::number(second::narrow(record, ram)),
    }
}

fn on_state(
    record: &mut [u8],
    ram: &mut [u8],
    rom: &[u8],
    work: impl FnOnce(&mut Machine, &mut [u8]) -> Answer,
) -> Answer {
    if ram.len() > MOST_BYTES || rom.len() > MOST_BYTES {
        return Answer::number(number::TOO_LONG);
    }
    match Machine::from_record(record) {
        Ok(mut machine) => {
            let ended = work(&mut machine, ram);
            save(&machine, record);
            ended
        }
        Err(number) => Answer::number(number),
    }
}

/// Reset's own refusals come first, then that of saving: 2 where the buffer
/// is no record's length.
fn reset(record: &mut [u8], ram: &[u8], rom: &[u8]) -> u8 {
    let (machine, number) = second::reset(ram, rom);
    if number != number::DONE {
        return number;
    }
    if record.len() != LENGTH {
        return number::NOT_VALID;
    }
    save(&machine, record);
    number::DONE
}

fn save(machine: &Machine, record: &mut [u8]) {
    let saved = machine.to_record().expect("a step keeps a state valid");
    record.copy_from_slice(&saved);
}
