//! The worked examples, run on the library: the books', document 01's cases
//! and those worked by hand, with the marks and the requests and without.

use super::Bench;
use crate::judge::Answer;
use draw::aim;
use draw::case::{Call, Case};
use draw::image::Image;
use second::examples::{self, Example};

/// Each as it stands, and then from another nesting count.
pub fn all(bench: &mut Bench) {
    for example in examples::all() {
        example_holds(bench, &example, 0);
        let more = bench.chance.long() as u16;
        example_holds(bench, &example, more);
    }
}

/// In one run, then step by step, each time after its request if it has one, and
/// with so much more in the nesting count: all that the example says, and nothing
/// else, must be there.
fn example_holds(bench: &mut Bench, example: &Example, more: u16) {
    let (mut start, mut end) = (example.start(), example.end());
    for scene in [&mut start, &mut end] {
        let nesting = aim::nesting(&scene.record).wrapping_add(more);
        aim::set_nesting(&mut scene.record, nesting);
    }
    let mut case = Case {
        call: Call::Run(example.steps),
        record: start.record.to_vec(),
        ram: Image::of(&start.ram),
        rom: Image::of(&start.rom),
    };
    offer(bench, example, &mut case);
    let (done, number, at) = example.answer();
    case.call = Call::Run(example.steps);
    let answer = bench.judge.hold(&case);
    let answered = answer == Answer::run(example.answer());
    let (record, ram) = bench.judge.left();
    let right = answered && record == end.record && ram == end.ram;
    bench.judge.expect(right, || told(example, &case));

    case.call = Call::Step;
    let whole = case.clone();
    let answered = (0..example.steps).all(|before| {
        let answer = bench.judge.hold_and_carry(&mut case);
        let wanted = if before < done { (0, 0) } else { (number, at) };
        answer == Answer::step(wanted)
    });
    let right = answered && case.record == end.record && case.ram.bytes == end.ram;
    bench.judge.expect(right, || told(example, &whole));
}

/// Offers the example's request, which must be answered as it says.
fn offer(bench: &mut Bench, example: &Example, case: &mut Case) {
    let (Some(offered), Some((taken, number, at))) = (example.request, example.request_answer())
    else {
        return;
    };
    case.call = Call::Request(offered.level, offered.vector);
    let answer = bench.judge.hold(case);
    let right = answer == Answer::request((u8::from(taken), number, at));
    bench.judge.expect(right, || told(example, case));
    bench.judge.carry(case);
}

fn told(example: &Example, case: &Case) -> String {
    format!(
        "example {} ({}): --case '{}'",
        example.name,
        example.source,
        case.text()
    )
}
