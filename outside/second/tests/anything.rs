//! Any state over any memories: always an answer, never a half-done step.

mod common;

use common::{offer, rom_start, step_at, step_once, Chance};
use second::{run, show, Machine, Marks, Width};

/// Pointers that mostly point at something.
fn pointer(chance: &mut Chance, ram: usize, rom: usize) -> u32 {
    let base = match chance.below(8) {
        0..=3 => 0,
        4 => (ram as u32).wrapping_sub(4),
        5 | 6 => 0u32.wrapping_sub(rom as u32),
        _ => return chance.next(),
    };
    base.wrapping_add(chance.below(16))
}

fn any_machine(chance: &mut Chance, ram: &[u8], rom: &[u8]) -> Machine {
    let mut machine = Machine::zero();
    machine.bank = chance.below(4) as u8;
    machine.level = chance.below(8) as u8;
    // One in four has marks, and a marked flag is 0.
    if chance.below(4) == 0 {
        machine.marks = Marks::from_bits(chance.byte());
        machine.marks_prime = Marks::from_bits(chance.byte());
    }
    machine.f = chance.byte() & 0xD7 & !machine.marks.flags();
    machine.f_prime = chance.byte() & 0xD7 & !machine.marks_prime.flags();
    machine.nesting = chance.next() as u16;
    for code in 0..8 {
        let value = pointer(chance, ram.len(), rom.len());
        machine.set(Width::Long, code, value);
    }
    machine.counter = match chance.below(8) {
        0..=3 => chance.below(16),
        4..=6 => rom_start(rom) + chance.below(16),
        _ => chance.next(),
    } % 0x100_0000;
    machine
}

#[test]
fn any_step_answers_and_refuses_cleanly() {
    let mut chance = Chance(42);
    let mut met = [0u32; 9];
    for _ in 0..150_000 {
        let ram_length = chance.below(40) as usize;
        let rom_length = chance.below(40) as usize;
        let mut ram: Vec<u8> = (0..ram_length).map(|_| chance.byte()).collect();
        let rom: Vec<u8> = (0..rom_length).map(|_| chance.byte()).collect();
        let mut machine = any_machine(&mut chance, &ram, &rom);
        let (bytes, shown) = show(&ram, &rom, machine.counter);
        assert!(bytes.len() <= 7);
        assert_eq!(bytes.is_empty(), shown != 0);
        let number = step_once(&mut machine, &mut ram, &rom);
        // The code is judged alike by both; a step may go on to 8, 5 or 6.
        assert!(number == shown || shown == 0 && matches!(number, 5 | 6 | 8));
        assert_eq!(
            Machine::from_record(&machine.to_record().unwrap()),
            Ok(machine)
        );
        met[usize::from(number)] += 1;
    }
    for number in [0, 3, 4, 5, 6, 8] {
        assert!(met[number] > 100, "number {number} was met {met:?}");
    }
}

#[test]
fn any_request_answers_and_refuses_cleanly() {
    let mut chance = Chance(44);
    let (mut met, mut taken_in_all) = ([0u32; 10], 0);
    for _ in 0..150_000 {
        let (ram_length, rom_length) = (chance.below(40) as usize, chance.below(40) as usize);
        let mut ram: Vec<u8> = (0..ram_length).map(|_| chance.byte()).collect();
        let rom: Vec<u8> = (0..rom_length).map(|_| chance.byte()).collect();
        let mut machine = any_machine(&mut chance, &ram, &rom);
        let level = chance.below(9);
        let vector = pointer(&mut chance, ram_length, rom_length) % 0x100_0010;
        let nesting = machine.nesting;
        let (taken, number, _) = offer(&mut machine, &mut ram, &rom, level, vector);
        if taken {
            assert_eq!(machine.nesting, nesting.wrapping_add(1));
            taken_in_all += 1;
        }
        assert_eq!(
            Machine::from_record(&machine.to_record().unwrap()),
            Ok(machine)
        );
        met[usize::from(number)] += 1;
    }
    for number in [0, 5, 6, 9] {
        assert!(met[number] > 100, "number {number} was met {met:?}");
    }
    assert!(taken_in_all > 1_000 && met[0] - taken_in_all > 1_000);
}

/// A run is so many steps, or those before the first refused one.
#[test]
fn any_run_is_its_steps() {
    let mut chance = Chance(43);
    for _ in 0..3_000 {
        let mut ram: Vec<u8> = (0..64).map(|_| chance.byte() % 0x68).collect();
        let rom: Vec<u8> = (0..32).map(|_| chance.byte()).collect();
        let mut machine = any_machine(&mut chance, &ram, &rom);
        let steps = chance.below(30);
        let (mut other, mut other_ram) = (machine.clone(), ram.clone());
        let ended = run(&mut machine, &mut ram, &rom, steps);
        let mut counted = (0, 0, 0);
        while counted.0 < steps {
            (counted.1, counted.2) = step_at(&mut other, &mut other_ram, &rom);
            if counted.1 != 0 {
                break;
            }
            counted.0 += 1;
        }
        assert_eq!(ended, counted);
        assert_eq!(machine, other);
        assert_eq!(ram, other_ram);
    }
}
