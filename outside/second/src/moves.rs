//! Records moved between the old form, of 88 bytes, and the new one, of 92.
//!
//! A record is judged by reading a state from it; but what is moved is its
//! bytes, and nothing is made of the state. A refusal leaves the room for the
//! other record as it was.

use crate::machine::Machine;
use crate::number;
use crate::record::{LAST, LENGTH, NESTING, OLD_LENGTH};

/// Moves an old record to the new form, and gives the number. The nesting count
/// and the marks are 0 then, as after a load of the old one.
pub fn widen(old: &[u8], new: &mut [u8]) -> u8 {
    if Machine::from_old_record(old).is_err() || new.len() != LENGTH {
        return number::NOT_VALID;
    }
    let (same, added) = new.split_at_mut(OLD_LENGTH);
    same.copy_from_slice(old);
    added.fill(0);
    number::DONE
}

/// Moves a record back to the old form, and gives the number: 10 where it has
/// something that the old form has no place for.
pub fn narrow(new: &[u8], old: &mut [u8]) -> u8 {
    if Machine::from_record(new).is_err() || old.len() != OLD_LENGTH {
        return number::NOT_VALID;
    }
    let count_and_marks = &new[NESTING..LAST];
    if count_and_marks.iter().any(|&byte| byte != 0) {
        return number::NO_OLD_FORM;
    }
    old.copy_from_slice(&new[..OLD_LENGTH]);
    number::DONE
}
