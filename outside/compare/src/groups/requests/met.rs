//! What a group has met: without it, a group that tries nothing would agree.

use super::{FRAME, TOP, VECTOR};
use crate::judge::{Answer, Judge};
use draw::aim::Layout;
use std::collections::BTreeSet;

/// Which operand of a request.
#[derive(Clone, Copy, Debug, PartialEq, Eq, PartialOrd, Ord)]
enum Place {
    Vector,
    Stack,
}

/// One of the two memories.
#[derive(Clone, Copy, Debug, PartialEq, Eq, PartialOrd, Ord)]
enum Memory {
    Ram,
    Rom,
}

/// How an operand is found: in a memory, or missing from one of its bytes on,
/// which has an address.
#[derive(Clone, Copy, Debug, PartialEq, Eq, PartialOrd, Ord)]
enum Found {
    In(Memory),
    Missing {
        begins: Option<Memory>,
        further: u32,
    },
}

/// How a vector and a stack were found together.
#[derive(Default)]
pub struct Met(BTreeSet<(Found, Found)>);

fn holder(layout: Layout, at: u32) -> Option<Memory> {
    if (at as usize) < layout.ram {
        Some(Memory::Ram)
    } else if at >= layout.rom_start() {
        Some(Memory::Rom)
    } else {
        None
    }
}

/// By the words of K3: byte by byte.
fn find(layout: Layout, first: u32, size: u32) -> Found {
    let begins = holder(layout, first);
    let leaves = |&further: &u32| holder(layout, (first + further) % TOP) != begins;
    match (begins, (1..size).find(leaves)) {
        (Some(memory), None) => Found::In(memory),
        (Some(_), Some(further)) => Found::Missing { begins, further },
        (None, _) => Found::Missing { begins, further: 0 },
    }
}

impl Met {
    /// Notes a pair of addresses, and gives what a request of level 7 with them
    /// answers: the vector's 5, then the stack's, then 6.
    pub fn note(&mut self, layout: Layout, vector: u32, stack: u32) -> Answer {
        let found = (
            find(layout, vector, VECTOR as u32),
            find(layout, stack, FRAME),
        );
        self.0.insert(found);
        let missing = |first: u32, further: u32| Answer::step((5, (first + further) % TOP));
        match found {
            (Found::Missing { further, .. }, _) => missing(vector, further),
            (_, Found::Missing { further, .. }) => missing(stack, further),
            (_, Found::In(Memory::Rom)) => Answer::step((6, stack)),
            _ => Answer::request((1, 0, 0)),
        }
    }

    /// Each way to find one was met with each way to find the other.
    pub fn expect_all(&self, judge: &mut Judge) {
        for vector in all(Place::Vector) {
            for stack in all(Place::Stack) {
                judge.expect(self.0.contains(&(vector, stack)), || {
                    format!("never a vector {vector:?} with a stack {stack:?}")
                });
            }
        }
    }
}

/// All ways to find an operand.
fn all(place: Place) -> Vec<Found> {
    let size = match place {
        Place::Vector => VECTOR as u32,
        Place::Stack => FRAME,
    };
    let nowhere = Found::Missing {
        begins: None,
        further: 0,
    };
    let mut all = vec![nowhere];
    for memory in [Memory::Ram, Memory::Rom] {
        all.push(Found::In(memory));
        all.extend((1..size).map(|further| Found::Missing {
            begins: Some(memory),
            further,
        }));
    }
    all
}
