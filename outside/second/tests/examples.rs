//! Runs every worked example through records and memories alone.

use second::examples::{all, banks, book, cases, feed, hand, interrupts, marks, Example};
use second::{request, run, show, step, Machine};

/// Whether the example is of a state that is not valid.
fn is_invalid(example: &Example) -> bool {
    example.answer() == (0, 2, 0)
}

fn check(example: &Example) {
    let label = format!("{} ({})", example.name, example.source);
    let mut scene = example.start();
    let wanted = example.end();
    if is_invalid(example) {
        assert_eq!(Machine::from_record(&scene.record), Err(2), "{label}");
        assert_eq!(scene, wanted, "{label}");
        return;
    }
    let mut machine = Machine::from_record(&scene.record).expect(&label);
    let offered = example.request.map(|offered| {
        let (level, vector) = (offered.level, offered.vector);
        request(&mut machine, &mut scene.ram, &scene.rom, level, vector)
    });
    assert_eq!(offered, example.request_answer(), "{label}");
    let ended = run(&mut machine, &mut scene.ram, &scene.rom, example.steps);
    assert_eq!(ended, example.answer(), "{label}");
    assert_eq!(
        Machine::from_record(&wanted.record).as_ref(),
        Ok(&machine),
        "{label}"
    );
    assert_eq!(machine.to_record(), Ok(wanted.record), "{label}");
    assert!(scene.ram == wanted.ram, "{label}: RAM");
}

#[test]
fn the_books_examples() {
    assert_eq!(book().len(), 59);
    book().iter().for_each(check);
}

#[test]
fn the_cases_of_document_01() {
    let cases = cases();
    assert_eq!(cases.len(), 13);
    cases.iter().for_each(check);
    for number in 1..=12 {
        let name = format!("P{number}");
        let named = |case: &&Example| case.name.split(',').next() == Some(name.as_str());
        assert!(cases.iter().any(|case| named(&case)), "{name} is missing");
    }
}

#[test]
fn our_own_examples() {
    assert_eq!(hand().len(), 215);
    hand().iter().for_each(check);
}

#[test]
fn the_marks() {
    assert_eq!(marks().len(), 263);
    marks().iter().for_each(check);
}

#[test]
fn the_interrupts() {
    assert_eq!(interrupts().len(), 217);
    interrupts().iter().for_each(check);
}

#[test]
fn the_bank_registers() {
    assert_eq!(banks().len(), 105);
    banks().iter().for_each(check);
}

#[test]
fn the_multiply_divide_and_modulo_steps() {
    assert_eq!(feed().len(), 248);
    feed().iter().for_each(check);
}

/// How often each number is what the examples end with.
fn refused_in(examples: &[Example]) -> [u32; 10] {
    let mut met = [0; 10];
    let refused = examples.iter().filter_map(|example| example.refused);
    for refusal in refused {
        met[usize::from(refusal.number)] += 1;
    }
    met
}

/// The books' examples, the cases and those for all codes are done; 8 is what
/// the table of the marks is there for, and 9 that of the interrupts.
#[test]
fn what_is_refused() {
    assert_eq!(refused_in(&[book(), cases(), hand()].concat()), [0; 10]);
    assert_eq!(refused_in(&marks()), [0, 0, 9, 2, 1, 2, 2, 0, 33, 0]);
    assert_eq!(refused_in(&interrupts()), [0, 0, 0, 2, 5, 45, 5, 0, 10, 15]);
    assert_eq!(refused_in(&banks()), [0, 0, 0, 6, 20, 0, 0, 0, 1, 0]);
    assert_eq!(refused_in(&feed()), [0, 0, 0, 9, 52, 0, 0, 0, 2, 0]);
}

/// Of the requests so many are taken; the others are refused, or are not taken.
#[test]
fn what_is_taken() {
    let answers: Vec<_> = interrupts()
        .iter()
        .filter_map(Example::request_answer)
        .collect();
    let count = |wanted: fn(&(bool, u8, u32)) -> bool| {
        answers.iter().filter(|answer| wanted(answer)).count()
    };
    assert_eq!(answers.len(), 141);
    assert_eq!(count(|&answer| answer == (true, 0, 0)), 70);
    assert_eq!(count(|&answer| answer == (false, 0, 0)), 27);
    assert_eq!(count(|&(taken, number, _)| !taken && number != 0), 44);
}

/// An example of one step has exactly one instruction as its code, but for
/// those that are refused for their code.
#[test]
fn the_code_is_shown_whole() {
    for example in all() {
        let at_once = example.steps == 1 && example.request.is_none();
        if at_once && !matches!(example.answer().1, 3 | 4) {
            let scene = example.start();
            let at = u32::from(example.at);
            let (bytes, number) = show(&scene.ram, &scene.rom, at);
            assert_eq!((bytes, number), (&example.code[..], 0), "{}", example.name);
        }
    }
}

/// The same in ROM: the code moves there, its operands stay in RAM, and
/// nothing else differs but the counter. What is refused for its code or its
/// operand is left out: a ROM so long changes where these end. So is what begins
/// with a request, which pushes the counter.
#[test]
fn the_code_may_lie_in_rom() {
    for example in all() {
        let (done, number, _) = example.answer();
        let left_out = is_invalid(&example) || example.request.is_some();
        if left_out || matches!(number, 3 | 5 | 6) {
            continue;
        }
        let mut scene = example.start();
        let mut in_ram = Machine::from_record(&scene.record).unwrap();
        let mut in_rom = in_ram.clone();
        let mut ram = scene.ram.clone();
        let mut rom = vec![0; 65_536];
        // A pop from ROM finds its zeros still.
        let first = usize::from(example.at);
        rom[first..first + example.code.len()].copy_from_slice(&example.code);
        in_rom.counter += 0xFF_0000;
        for place in 0..example.steps {
            let wanted = (if place < done { 0 } else { number }, 0);
            let ended = step(&mut in_ram, &mut scene.ram, &scene.rom);
            assert_eq!(ended, wanted, "{}", example.name);
            let ended = step(&mut in_rom, &mut ram, &rom);
            assert_eq!(ended, wanted, "{}", example.name);
        }
        let jumps = matches!(example.code[0], 0x07 | 0x0E | 0x1A..=0x1D);
        let calls = matches!(example.code[0], 0x1C..=0x1E);
        if !jumps {
            let moved = (in_ram.counter + 0xFF_0000) % 0x100_0000;
            assert_eq!(in_rom.counter, moved, "{}", example.name);
        }
        in_rom.counter = in_ram.counter;
        assert_eq!(in_rom, in_ram, "{}", example.name);
        if !calls {
            assert!(ram == scene.ram, "{}: RAM", example.name);
        }
    }
}
