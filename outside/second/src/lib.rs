//! A second interpreter of the listed TLCS-900/H codes.
//!
//! **This crate is unproved and is run only as a test.** It was written from
//! document 01, those requests of document 02 that have landed, and Toshiba's
//! books alone, without sight of the verified library (who asked for a request
//! knew it: docs/landings), so that the two can be compared as independent
//! witnesses. Where they differ, at least one of them is wrong; where they
//! agree, nothing is proved by it.
//!
//! On purpose its parts are cut differently from the obvious ones:
//!
//! * the registers are 80 plain bytes seen through windows ([`Machine`]);
//! * codes are told apart by matching their octal digits, with no table;
//! * flags come from what they mean, by sums too wide to overflow, and H and V
//!   are nothing at all where 000 leaves them undefined;
//! * a step works on a copy of the state and stores to RAM as its last act,
//!   so that a refusal has nothing to undo.
//!
//! The numbers are document 01's: 0 done, 7 too many steps, 1 a memory too
//! long, 2 a state, address or record that breaks its rules, 3 code bytes
//! missing, 4 a code not listed, 5 an operand missing, 6 a store to ROM. K6
//! adds 8, for a flag that is read and that 000 leaves undefined; it comes
//! after 4 and before 5. K8 adds 9, for a request that there cannot be; it
//! comes after 2. K9 adds 10, for a record that the old form cannot hold; it
//! comes after 2. To 5 and 6 a step, a run or a request adds the address that
//! K3 names; with any other number it adds 0.

#![forbid(unsafe_code)]

mod arithmetic;
mod decode;
pub mod examples;
mod execute;
mod flags;
mod machine;
mod memory;
mod moves;
mod program;
pub mod record;
mod refusal;
mod register;
mod request;
mod width;

/// The numbers by which a call says how it ended.
pub mod number {
    /// The call did what was asked.
    pub const DONE: u8 = 0;
    /// RAM or ROM is longer than 65,536 bytes.
    pub const TOO_LONG: u8 = 1;
    /// A state, an address to show or a saved record breaks its rules.
    pub const NOT_VALID: u8 = 2;
    /// A code byte is not in the memory it would have to be in.
    pub const NO_CODE: u8 = 3;
    /// The code bytes so far begin no listed instruction.
    pub const NOT_LISTED: u8 = 4;
    /// An operand lies wholly in neither memory.
    pub const MISSING: u8 = 5;
    /// A store would go to ROM.
    pub const INTO_ROM: u8 = 6;
    /// A run was asked for more than 1,000,000 steps.
    pub const TOO_MANY: u8 = 7;
    /// A flag is read that 000 leaves undefined.
    pub const UNDEFINED: u8 = 8;
    /// A request has no level from 1 to 7, or no address for its vector.
    pub const BAD_REQUEST: u8 = 9;
    /// A record to move back has a mark, or its nesting count is not 0.
    pub const NO_OLD_FORM: u8 = 10;
}

pub use execute::{run, step, MOST_STEPS};
pub use flags::Marks;
pub use machine::Machine;
pub use memory::{show, MOST_BYTES};
pub use moves::{narrow, widen};
pub use program::{line, reset};
pub use request::request;
pub use width::Width;
