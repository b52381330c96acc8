//! Reads a table of worked examples, one example a line:
//!
//! ```text
//! # name   | source        | code        | before                | after
//! CP HL,IX | 000 line 1786 | DC F3       | HL=1234 IX=1234       | F=42 +2
//! POP IX   | 000 line 1133 | 4C          | XSP=0100 [0100]=56,78 | IX=7856 XSP=0102 +1
//! P10      | 01            | @2000 68 32 |                       | PC=002034
//! P12      | 01            | 84 15 x3    | A=33 XIX=3456 BC=0200 | XIX=3459 BC=01FD F=46 +2
//!          |               |             | [3456]=11,22,33       |
//! ```
//!
//! Every number is hexadecimal. The code lies at 8000 and one step is done;
//! `@2000` before the code is another address, `x3` after it another number
//! of steps. Before all of it may stand `?3@1000`, a request of level 3 with a
//! vector at 1000, which is offered first; then there may be no code, and no
//! step is done. Before and after stand:
//!
//! - `HL=1234`: a register by its book name, in bank 0 where it has a bank,
//!   `XHL2=1234` a long one of another bank, `F=42` and `F'=42` the flags,
//!   `BANK=3` the current bank, `LEVEL=7` the level, `NEST=0001` the nesting
//!   count;
//! - `F?=H`, `F?=V`, `F?=HV`, `F?=-`: which flags of F are marked as undefined,
//!   or that none is; `F'?=H` and so on those of F';
//! - `PC=002034`: the counter, and `+2` the counter two past the first byte of
//!   the code;
//! - `[0100]=56,78`: bytes of RAM, one after another from the address on;
//! - `ROM=10`: a ROM of so many zero bytes, where none is there otherwise.
//!
//! After stands, too, how the last step is refused, if it is: `!8` by its
//! number, `!5@010000` with the address that goes with it. The steps before it
//! are done. Where no step is done it is the request that is refused. After
//! also stands `taken` if the request is.
//!
//! A line whose first three columns are empty goes on with the example above
//! it. Empty lines, and those that begin with `#`, are for the reader only.

use super::{Example, Part, Refused, Request};
use crate::flags::Marks;
use crate::record;

/// The examples of a table, in its order. A line that is none stops
/// everything: a slip in a table must not pass for a smaller table.
pub fn read(file: &str, text: &'static str) -> Vec<Example> {
    let mut examples = Vec::new();
    for (above, line) in text.lines().enumerate() {
        let remark = line.starts_with('#') || line.is_empty();
        if !remark && add(&mut examples, line).is_none() {
            panic!("{file}, line {} is malformed: {line}", above + 1);
        }
    }
    examples
}

/// Begins an example, or goes on with the last; `None` if the line is
/// malformed.
fn add(examples: &mut Vec<Example>, line: &'static str) -> Option<()> {
    let columns: Vec<&'static str> = line.split('|').map(str::trim).collect();
    let [name, source, code, before, after] = <[&'static str; 5]>::try_from(columns).ok()?;
    if !(name.is_empty() && source.is_empty() && code.is_empty()) {
        examples.push(begin(name, source, code)?);
    }
    let example = examples.last_mut()?;
    let (answers, after): (Vec<&str>, Vec<&str>) = after
        .split_whitespace()
        .partition(|word| *word == TAKEN || word.starts_with('!'));
    for word in answers {
        answer(example, word)?;
    }
    let before = before.split_whitespace().collect();
    example.before.append(&mut parts(before, example.at)?);
    example.after.append(&mut parts(after, example.at)?);
    Some(())
}

const TAKEN: &str = "taken";

/// What an example says of the answers: that its request is taken, or how
/// something is refused. Either is said only once, and of what is there.
fn answer(example: &mut Example, word: &str) -> Option<()> {
    if word == TAKEN {
        let request = example.request.as_mut()?;
        let again = std::mem::replace(&mut request.taken, true);
        return (!again).then_some(());
    }
    let again = example.refused.replace(refusal(word)?);
    let anything = example.steps > 0 || example.request.is_some();
    (again.is_none() && anything).then_some(())
}

/// An example with nothing before and after it yet.
fn begin(name: &'static str, source: &'static str, code: &str) -> Option<Example> {
    let mut words: Vec<&str> = code.split_whitespace().collect();
    let request = match words.first()?.strip_prefix('?') {
        Some(offered) => {
            words.remove(0);
            Some(self::request(offered)?)
        }
        None => None,
    };
    if request.is_some() && words.is_empty() {
        // It stands alone, and no step is done.
        words.push("x0");
    }
    let mut at = 0x8000;
    if let Some(other) = words.first()?.strip_prefix('@') {
        at = number(other, 4)?;
        words.remove(0);
    }
    let mut steps = 1;
    if let Some(other) = words.last()?.strip_prefix('x') {
        steps = number(other, 8)?;
        words.pop();
    }
    let nothing = words.is_empty() && (request.is_none() || steps != 0);
    if name.is_empty() || source.is_empty() || nothing {
        return None;
    }
    Some(Example {
        name,
        source,
        request,
        at,
        code: words.into_iter().map(byte).collect::<Option<_>>()?,
        before: Vec::new(),
        steps,
        refused: None,
        after: Vec::new(),
    })
}

/// A level and the address of a vector. Either may be one that is refused.
fn request(word: &str) -> Option<Request> {
    let (level, vector) = word.split_once('@')?;
    Some(Request {
        level: number(level, 8)?,
        vector: number(vector, 8)?,
        taken: false,
    })
}

/// A number of one digit that is not 0, and an address where there is one.
fn refusal(word: &str) -> Option<Refused> {
    let told = word.strip_prefix('!')?;
    let (digit, at) = told.split_once('@').unwrap_or((told, "0"));
    Some(Refused {
        number: number(digit, 1).filter(|&number| number != 0)?,
        at: number(at, 6)?,
    })
}

/// What a column before or after says of an example whose code begins there.
fn parts(column: Vec<&'static str>, at: u16) -> Option<Vec<Part>> {
    let mut parts = Vec::new();
    for word in column {
        if let Some(past) = word.strip_prefix('+') {
            parts.push(Part::Counter(u32::from(at) + number::<u32>(past, 2)?));
            continue;
        }
        let (name, value) = word.split_once('=')?;
        match name.strip_prefix('[') {
            Some(rest) => parts.append(&mut memory(rest.strip_suffix(']')?, value)?),
            None => parts.push(named(name, value)?),
        }
    }
    Some(parts)
}

/// Bytes of RAM, one after another.
fn memory(first: &str, values: &str) -> Option<Vec<Part>> {
    let first: u32 = number(first, 4)?;
    let places = (first..).zip(values.split(','));
    places
        .map(|(address, value)| Some(Part::Memory(u16::try_from(address).ok()?, byte(value)?)))
        .collect()
}

/// Anything else that has a name. A value must fit where it goes, since a
/// scene would cut it.
fn named(name: &'static str, value: &str) -> Option<Part> {
    Some(match name {
        "F" => Part::F(byte(value)?),
        "F'" => Part::SpareF(byte(value)?),
        "F?" => Part::Marks(marks(value)?),
        "F'?" => Part::SpareMarks(marks(value)?),
        "ROM" => Part::Rom(number(value, 4)?),
        "BANK" => Part::Bank(number(value, 1).filter(|&bank| bank < 4)?),
        "LEVEL" => Part::Level(number(value, 1).filter(|&level| level < 8)?),
        "NEST" => Part::Nesting(number(value, 4)?),
        "PC" => Part::Counter(number(value, 6)?),
        _ => {
            let size = record::named(name)?.len();
            Part::Register(name, number(value, 2 * size)?)
        }
    })
}

/// The flags that are marked, by their letters.
fn marks(letters: &str) -> Option<Marks> {
    let (h, v) = match letters {
        "H" => (true, false),
        "V" => (false, true),
        "HV" => (true, true),
        "-" => (false, false),
        _ => return None,
    };
    Some(Marks { h, v })
}

/// A byte has two digits, no fewer, so that none is lost unseen.
fn byte(digits: &str) -> Option<u8> {
    number(digits, 2).filter(|_| digits.len() == 2)
}

/// A number of at most so many digits.
fn number<T: TryFrom<u32>>(digits: &str, most: usize) -> Option<T> {
    // The library's reader would let a sign pass.
    let plain = digits.len() <= most && digits.bytes().all(|digit| digit.is_ascii_hexdigit());
    let value = u32::from_str_radix(digits, 16).ok().filter(|_| plain)?;
    T::try_from(value).ok()
}

#[cfg(test)]
mod tests {
    use super::*;

    #[test]
    fn every_kind_of_word() {
        let text = "# A remark.\n\n\
            one   | here  | @2000 68 32 x3 | A=33 XIX=3456 F=01 F'=02 BANK=3 | PC=002034\n\
                  |       |                | [3456]=11,22                    | +2\n\
            EX #2 | there | 16             |                                 | +1\n\
            three | there | 00 18 x2       | F?=HV F'?=H ROM=10              | +1 !8\n\
            four  | there | 18             | F?=- F'?=V                      | !5@012345\n\
            five  | there | ?3@1000        | LEVEL=5 NEST=1234               | taken\n\
            six   | there | ?8@1000000     |                                 | !9\n\
            seven | there | ?7@20 @10 00   |                                 | !3 taken\n";
        let [one, two, three, four, others @ ..] = &read("table", text)[..] else {
            panic!("too few examples");
        };
        assert_eq!((one.name, one.source), ("one", "here"));
        assert_eq!((one.at, one.steps), (0x2000, 3));
        assert_eq!(one.code, [0x68, 0x32]);
        let before = [
            Part::Register("A", 0x33),
            Part::Register("XIX", 0x3456),
            Part::F(1),
            Part::SpareF(2),
            Part::Bank(3),
            Part::Memory(0x3456, 0x11),
            Part::Memory(0x3457, 0x22),
        ];
        assert_eq!(one.before, before);
        assert_eq!(one.after, [Part::Counter(0x2034), Part::Counter(0x2002)]);
        assert_eq!((two.name, two.at, two.steps), ("EX #2", 0x8000, 1));
        assert!(two.before.is_empty());
        assert_eq!(two.after, [Part::Counter(0x8001)]);
        assert_eq!(one.answer(), (3, 0, 0));
        assert_eq!(two.answer(), (1, 0, 0));
        let (none, h, v, both) = ((false, false), (true, false), (false, true), (true, true));
        let marks = |(h, v)| Part::Marks(Marks { h, v });
        let spare = |(h, v)| Part::SpareMarks(Marks { h, v });
        assert_eq!(three.before, [marks(both), spare(h), Part::Rom(16)]);
        assert_eq!(three.after, [Part::Counter(0x8001)]);
        assert_eq!(three.answer(), (1, 8, 0));
        assert_eq!(four.before, [marks(none), spare(v)]);
        assert!(four.after.is_empty());
        assert_eq!(four.answer(), (0, 5, 0x01_2345));
        assert_eq!(one.request_answer(), None);
        requests(others);
    }

    /// What the last lines above say of requests.
    fn requests(examples: &[Example]) {
        let [five, six, seven] = examples else {
            panic!("{} examples", examples.len());
        };
        let offered = |example: &Example| {
            let request = example.request.expect("a request");
            (request.level, request.vector)
        };
        assert_eq!(offered(five), (3, 0x1000));
        assert_eq!((five.at, five.steps, five.code.len()), (0x8000, 0, 0));
        assert_eq!(five.before, [Part::Level(5), Part::Nesting(0x1234)]);
        assert_eq!(five.request_answer(), Some((true, 0, 0)));
        assert_eq!(five.answer(), (0, 0, 0));
        assert_eq!(offered(six), (8, 0x100_0000));
        assert_eq!(six.request_answer(), Some((false, 9, 0)));
        assert_eq!(six.answer(), (0, 0, 0));
        assert_eq!((seven.at, seven.steps), (0x10, 1));
        assert_eq!(seven.request_answer(), Some((true, 0, 0)));
        assert_eq!(seven.answer(), (0, 3, 0));
    }

    #[test]
    #[should_panic(expected = "table, line 3 is malformed: CP HL,IX | DC F3 | | F=42 +2")]
    fn a_malformed_line_is_named() {
        let text = "# A remark.\nNOP | 01 | 00 | | +1\nCP HL,IX | DC F3 | | F=42 +2\n";
        read("table", text);
    }

    #[test]
    #[should_panic(expected = "table, line 1 is malformed:  | | | F=42 | +2")]
    fn nothing_goes_on_before_the_first() {
        read("table", " | | | F=42 | +2\nNOP | 01 | 00 | | +1\n");
    }

    /// Each line has one slip, after a line that has none.
    #[test]
    fn slips_are_seen() {
        let slips = [
            "NOP | 01 | 00 | | +1 |",
            " | 01 | 00 | | +1",
            "NOP | | 00 | | +1",
            "NOP | 01 | | | +1",
            "NOP | 01 | @2000 | | +1",
            "NOP | 01 | x2 | | +1",
            "NOP | 01 | 00 @2000 | | +1",
            "NOP | 01 | x2 00 | | +1",
            "NOP | 01 | 0 | | +1",
            "NOP | 01 | 000 | | +1",
            "NOP | 01 | 0G | | +1",
            "NOP | 01 | +1 | | +1",
            "NOP | 01 | @12000 00 | | +1",
            "NOP | 01 | 00 x | | +1",
            "NOP | 01 | 00 | Q=00 | +1",
            "NOP | 01 | 00 | XWA4=00 | +1",
            "NOP | 01 | 00 | XIX0=00 | +1",
            "NOP | 01 | 00 | WA2=00 | +1",
            "NOP | 01 | 00 | A | +1",
            "NOP | 01 | 00 | A= | +1",
            "NOP | 01 | 00 | A=100 | +1",
            "NOP | 01 | 00 | HL=-1 | +1",
            "NOP | 01 | 00 | HL=12345 | +1",
            "NOP | 01 | 00 | XHL=123456789 | +1",
            "NOP | 01 | 00 | F=100 | +1",
            "NOP | 01 | 00 | BANK=4 | +1",
            "NOP | 01 | 00 | [1000=00 | +1",
            "NOP | 01 | 00 | [10000]=00 | +1",
            "NOP | 01 | 00 | [1000]=00, | +1",
            "NOP | 01 | 00 | [FFFF]=00,00 | +1",
            "NOP | 01 | 00 | | PC=1000000",
            "NOP | 01 | 00 | | +",
            "NOP | 01 | 00 | F?= | +1",
            "NOP | 01 | 00 | F?=VH | +1",
            "NOP | 01 | 00 | F?=0 | +1",
            "NOP | 01 | 00 | F'?=HVH | +1",
            "NOP | 01 | 00 | ROM=10000 | +1",
            "NOP | 01 | 00 | !8 | ",
            "NOP | 01 | 00 | | !",
            "NOP | 01 | 00 | | !0",
            "NOP | 01 | 00 | | !10",
            "NOP | 01 | 00 | | !5@",
            "NOP | 01 | 00 | | !5@1000000",
            "NOP | 01 | 00 | | !8 !8",
            "NOP | 01 | 00 x0 | | !8",
            "NOP | 01 | 00 | LEVEL=8 | +1",
            "NOP | 01 | 00 | NEST=10000 | +1",
            "NOP | 01 | 00 | | taken",
            "NOP | 01 | 00 | taken | +1",
            "NOP | 01 | ?3@1000 00 | | taken taken",
            "NOP | 01 | ?3@1000 | | !9 !9",
            "NOP | 01 | ?3 00 | | +1",
            "NOP | 01 | ?@1000 00 | | +1",
            "NOP | 01 | ?3@ 00 | | +1",
            "NOP | 01 | ?123456789@0 | | +1",
            "NOP | 01 | ?1@123456789 | | +1",
            "NOP | 01 | 00 ?3@1000 | | +1",
            "NOP | 01 | @2000 ?3@1000 00 | | +1",
            "NOP | 01 | ?3@1000 @2000 | | +1",
            "NOP | 01 | ?3@1000 x1 | | +1",
        ];
        for slip in slips {
            let mut examples = read("table", "NOP | 01 | 00 | | +1");
            assert!(add(&mut examples, slip).is_none(), "{slip}");
        }
    }
}
