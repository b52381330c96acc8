//! Results and flags, worked out from their meaning.
//!
//! Every sum is made twice in numbers too wide to overflow: once of the
//! operands as unsigned, once as signed. A carry or a borrow is an unsigned
//! sum that does not fit, an overflow a signed sum that does not fit. Products
//! and quotients are made in such numbers, too, once as they are asked for.

use crate::flags::Flags;
use crate::width::Width;

/// The eight operations of two operands, in the order of their codes.
#[derive(Clone, Copy, Debug, PartialEq, Eq)]
pub(crate) enum Operation {
    Add,
    AddWithCarry,
    Subtract,
    SubtractWithCarry,
    And,
    ExclusiveOr,
    Or,
    Compare,
}

/// The four shifts. SLA and SLL are the same operation under two codes.
#[derive(Clone, Copy, Debug, PartialEq, Eq)]
pub(crate) enum Shift {
    Left,
    RightKeepingSign,
    RightWithZeros,
}

/// What becomes of a register by something half as wide.
#[derive(Clone, Copy, Debug, PartialEq, Eq)]
pub(crate) enum Scale {
    Multiply,
    Divide,
}

/// What `left` becomes by the operation, and the flags afterwards. A compare
/// leaves it as it is.
pub(crate) fn combine(
    operation: Operation,
    width: Width,
    left: u32,
    right: u32,
    carry: bool,
) -> (u32, Flags) {
    match operation {
        Operation::Add => add(width, left, right, false),
        Operation::AddWithCarry => add(width, left, right, carry),
        Operation::Subtract => subtract(width, left, right, false),
        Operation::SubtractWithCarry => subtract(width, left, right, carry),
        Operation::And => logical(width, left & right, true),
        Operation::ExclusiveOr => logical(width, left ^ right, false),
        Operation::Or => logical(width, left | right, false),
        Operation::Compare => (left, subtract(width, left, right, false).1),
    }
}

/// The sum of two values and a carry.
pub(crate) fn add(width: Width, left: u32, right: u32, carry: bool) -> (u32, Flags) {
    let one = i64::from(carry);
    let unsigned = i64::from(left) + i64::from(right) + one;
    let signed = width.signed(left) + width.signed(right) + one;
    let nibbles = i64::from(left % 16) + i64::from(right % 16) + one;
    let result = width.round(unsigned);
    let flags = Flags {
        h: half(width, nibbles),
        v: Some(!width.holds_signed(signed)),
        n: false,
        c: !width.holds_unsigned(unsigned),
        ..of_result(width, result)
    };
    (result, flags)
}

/// The left value less the right one and a borrow.
pub(crate) fn subtract(width: Width, left: u32, right: u32, borrow: bool) -> (u32, Flags) {
    let one = i64::from(borrow);
    let unsigned = i64::from(left) - i64::from(right) - one;
    let signed = width.signed(left) - width.signed(right) - one;
    let nibbles = i64::from(left % 16) - i64::from(right % 16) - one;
    let result = width.round(unsigned);
    let flags = Flags {
        h: half(width, nibbles),
        v: Some(!width.holds_signed(signed)),
        n: true,
        c: !width.holds_unsigned(unsigned),
        ..of_result(width, result)
    };
    (result, flags)
}

/// The flags of AND, OR and XOR, which differ in H alone.
fn logical(width: Width, result: u32, h: bool) -> (u32, Flags) {
    let flags = Flags {
        h: Some(h),
        v: parity(width, result),
        ..of_result(width, result)
    };
    (result, flags)
}

/// A shift by 1 to 16 places, all at once: going left is multiplying by a
/// power of two, going right is dividing by one and rounding down. The last
/// bit out is what the shift by one place fewer had standing at the edge.
pub(crate) fn shift(kind: Shift, width: Width, value: u32, places: u32) -> (u32, Flags) {
    let odd = |number: i64| number.rem_euclid(2) == 1;
    let (moved, last_out) = match kind {
        Shift::Left => {
            let moved = i64::from(value) << places;
            (moved, odd(moved / width.modulus()))
        }
        Shift::RightKeepingSign => {
            let signed = width.signed(value);
            let before = signed.div_euclid(1 << (places - 1));
            (before.div_euclid(2), odd(before))
        }
        Shift::RightWithZeros => {
            let before = i64::from(value) / (1 << (places - 1));
            (before / 2, odd(before))
        }
    };
    let result = width.round(moved);
    let flags = Flags {
        v: parity(width, result),
        c: last_out,
        ..of_result(width, result)
    };
    (result, flags)
}

/// The lower half of a value, widened to the whole of it. Bytes have no
/// halves that are registers; the codes for them are not listed.
pub(crate) fn extend(width: Width, value: u32, keep_sign: bool) -> u32 {
    let half = width.half();
    let low = half.round(i64::from(value));
    if keep_sign {
        width.round(half.signed(low))
    } else {
        low
    }
}

/// MUL and MULS: the lower half of a value times something as wide as that
/// half. The product always fits the whole.
pub(crate) fn multiply(width: Width, value: u32, by: u32, signed: bool) -> u32 {
    let half = width.half();
    let low = half.round(i64::from(value));
    width.round(half.number(low, signed) * half.number(by, signed))
}

/// DIV and DIVS: the quotient in the lower half, the remainder in the upper
/// one, with the dividend's sign. Nothing where the divisor is 0 or the
/// quotient does not fit its half.
pub(crate) fn divide(width: Width, value: u32, by: u32, signed: bool) -> Option<u32> {
    let half = width.half();
    let (dividend, divisor) = (width.number(value, signed), half.number(by, signed));
    let quotient = dividend.checked_div(divisor)?;
    let remainder = dividend - quotient * divisor;
    let low = i64::from(half.round(quotient));
    let high = i64::from(half.round(remainder));
    half.holds(quotient, signed)
        .then(|| width.round(high * half.modulus() + low))
}

/// MINC and MDEC: a word goes so much up, or down if `by` is negative, but from
/// one end of the table to its other end. 000's operation lines are done to the
/// letter, also for a word that steps over the end and never meets it.
pub(crate) fn cycle(value: u32, by: i64, table: i64) -> u32 {
    let value = i64::from(value);
    let (end, back) = match by > 0 {
        true => (table - by, -(table - by)),
        false => (0, table + by),
    };
    let moved = if value % table == end { back } else { by };
    Width::Word.round(value + moved)
}

/// S and Z of a result, and every other flag 0.
fn of_result(width: Width, result: u32) -> Flags {
    Flags {
        s: width.signed(result) < 0,
        z: result == 0,
        h: Some(false),
        v: Some(false),
        n: false,
        c: false,
    }
}

/// Whether the lowest four bits carried or borrowed. The book leaves this
/// undefined for longs.
fn half(width: Width, nibbles: i64) -> Option<bool> {
    defined(width, !(0..16).contains(&nibbles))
}

/// Whether the number of ones is even. The book leaves this undefined for
/// longs.
fn parity(width: Width, result: u32) -> Option<bool> {
    defined(width, result.count_ones() & 1 == 0)
}

/// A flag that only bytes and words have.
fn defined(width: Width, flag: bool) -> Option<bool> {
    match width {
        Width::Byte | Width::Word => Some(flag),
        Width::Long => None,
    }
}

#[cfg(test)]
mod tests {
    //! The wide sums against the other way of seeing it: bit by bit, as
    //! wires would do it, and shifts one place at a time, as 000 writes them.
    //! Products are summed bit by bit, too; quotients are gone through one by
    //! one, to see what they are quotients of.

    use super::*;

    const WIDTHS: [Width; 3] = [Width::Byte, Width::Word, Width::Long];

    fn bits(width: Width) -> usize {
        8 * width.bytes()
    }

    fn bit(value: u32, place: usize) -> bool {
        value >> place & 1 == 1
    }

    /// Adds bit by bit; the carries into each place and out of the last.
    fn ripple(width: Width, left: u32, right: u32, carry: bool) -> (u32, Vec<bool>) {
        let mut carries = vec![carry];
        let mut result = 0;
        for place in 0..bits(width) {
            let ones = [bit(left, place), bit(right, place), carries[place]];
            let count = ones.iter().filter(|&&one| one).count();
            result |= ((count % 2) as u32) << place;
            carries.push(count >= 2);
        }
        (result, carries)
    }

    /// The flags as wires give them. Subtracting is adding the complement,
    /// with every carry the opposite of a borrow.
    fn by_wires(width: Width, left: u32, right: u32, carry: bool, less: bool) -> (u32, Flags) {
        let all = width.round(-1);
        let right = if less { right ^ all } else { right };
        let (result, carries) = ripple(width, left, right, carry != less);
        let top = bits(width);
        let flags = Flags {
            s: bit(result, top - 1),
            z: result == 0,
            h: (top < 32).then_some(carries[4] != less),
            v: Some(carries[top] != carries[top - 1]),
            n: less,
            c: carries[top] != less,
        };
        (result, flags)
    }

    /// V as parity: nothing for longs, by the flag lines of 000.
    fn even_ones(width: Width, value: u32) -> Option<bool> {
        let places = 0..bits(width);
        let even = places.fold(true, |even, place| even != bit(value, place));
        (bits(width) < 32).then_some(even)
    }

    fn check_sums(width: Width, left: u32, right: u32) {
        for carry in [false, true] {
            assert_eq!(
                add(width, left, right, carry),
                by_wires(width, left, right, carry, false),
                "{width:?} {left:X} + {right:X} + {carry}"
            );
            assert_eq!(
                subtract(width, left, right, carry),
                by_wires(width, left, right, carry, true),
                "{width:?} {left:X} - {right:X} - {carry}"
            );
        }
    }

    /// Values where something changes, and some in between.
    fn telling_values(width: Width) -> Vec<u32> {
        let mut values: Vec<u32> = (0..bits(width))
            .flat_map(|place| [-1i64, 0, 1].map(|by| (1i64 << place) + by))
            .flat_map(|number| [number, -number])
            .map(|number| width.round(number))
            .chain([0x1234_5678, 0x9ABC_DEF0, 0x0F0F_0F0F, 0x5A5A_A5A5].map(|v| width.round(v)))
            .collect();
        values.sort_unstable();
        values.dedup();
        values
    }

    #[test]
    fn all_sums_of_bytes() {
        for left in 0..256 {
            for right in 0..256 {
                check_sums(Width::Byte, left, right);
            }
        }
    }

    #[test]
    fn telling_sums_of_words_and_longs() {
        for width in [Width::Word, Width::Long] {
            for left in telling_values(width) {
                for right in telling_values(width) {
                    check_sums(width, left, right);
                }
            }
        }
    }

    #[test]
    fn operations_take_the_carry_only_where_named() {
        for carry in [false, true] {
            let with = |operation| combine(operation, Width::Byte, 0x0F, 0x01, carry).0;
            assert_eq!(with(Operation::Add), 0x10);
            assert_eq!(with(Operation::AddWithCarry), 0x10 + u32::from(carry));
            assert_eq!(with(Operation::Subtract), 0x0E);
            assert_eq!(with(Operation::SubtractWithCarry), 0x0E - u32::from(carry));
            assert_eq!(with(Operation::Compare), 0x0F);
            let compared = combine(Operation::Compare, Width::Byte, 0, 1, carry).1;
            assert_eq!(compared, subtract(Width::Byte, 0, 1, false).1);
        }
    }

    #[test]
    fn logical_operations() {
        for width in WIDTHS {
            for left in telling_values(width) {
                for right in telling_values(width) {
                    for (operation, result, h) in [
                        (Operation::And, left & right, true),
                        (Operation::Or, left | right, false),
                        (Operation::ExclusiveOr, left ^ right, false),
                    ] {
                        let flags = Flags {
                            s: bit(result, bits(width) - 1),
                            z: result == 0,
                            h: Some(h),
                            v: even_ones(width, result),
                            n: false,
                            c: false,
                        };
                        let got = combine(operation, width, left, right, true);
                        assert_eq!(got, (result, flags));
                    }
                }
            }
        }
    }

    /// One place at a time, carrying the value and the last bit out.
    fn place_by_place(kind: Shift, width: Width, value: u32, places: u32) -> (u32, bool) {
        let top = bits(width) - 1;
        let mut now = (value, false);
        for _ in 0..places {
            let old = now.0;
            now = match kind {
                Shift::Left => {
                    let kept = old & !(1 << top);
                    (kept << 1, bit(old, top))
                }
                Shift::RightKeepingSign => {
                    let sign = old & (1 << top);
                    (old >> 1 | sign, bit(old, 0))
                }
                Shift::RightWithZeros => (old >> 1, bit(old, 0)),
            };
        }
        now
    }

    #[test]
    fn shifts_by_every_number_of_places() {
        for width in WIDTHS {
            let values = match width {
                Width::Byte => (0..256).collect(),
                _ => telling_values(width),
            };
            for value in values {
                for places in 1..=16 {
                    for kind in [Shift::Left, Shift::RightKeepingSign, Shift::RightWithZeros] {
                        let (result, out) = place_by_place(kind, width, value, places);
                        let flags = Flags {
                            s: bit(result, bits(width) - 1),
                            z: result == 0,
                            h: Some(false),
                            v: even_ones(width, result),
                            n: false,
                            c: out,
                        };
                        assert_eq!(
                            shift(kind, width, value, places),
                            (result, flags),
                            "{kind:?} {width:?} {value:X} by {places}"
                        );
                    }
                }
            }
        }
    }

    #[test]
    fn extensions() {
        for value in 0..=0xFFFF_u32 {
            let low = value & 0xFF;
            let signed = if bit(low, 7) { low | 0xFF00 } else { low };
            assert_eq!(extend(Width::Word, value, false), low);
            assert_eq!(extend(Width::Word, value, true), signed);
            for high in [0, 0x1234_0000, 0xFFFF_0000] {
                let signed = if bit(value, 15) {
                    value | 0xFFFF_0000
                } else {
                    value
                };
                assert_eq!(extend(Width::Long, high | value, false), value);
                assert_eq!(extend(Width::Long, high | value, true), signed);
            }
        }
    }

    /// A part of the product for every bit that is set; that of the top bit
    /// counts down where there are signs.
    fn by_parts(width: Width, value: u32, by: u32, signed: bool) -> u32 {
        let low = i64::from(extend(width, value, signed));
        let top = bits(width) / 2 - 1;
        let parts = (0..=top).filter(|&place| bit(by, place));
        let product = parts.fold(0, |sum, place| match signed && place == top {
            true => sum - (low << place),
            false => sum + (low << place),
        });
        width.round(product)
    }

    fn check_product(width: Width, value: u32, by: u32) {
        for signed in [false, true] {
            let product = multiply(width, value, by, signed);
            let wanted = by_parts(width, value, by, signed);
            assert_eq!(product, wanted, "{value:X} by {by:X}, signed {signed}");
        }
    }

    #[test]
    fn all_products_of_bytes() {
        for value in 0..=0xFFFF {
            // The upper half, which has no part in it, is the other operand.
            check_product(Width::Word, value, value >> 8);
        }
    }

    #[test]
    fn telling_products_of_words() {
        for value in telling_values(Width::Long) {
            for by in telling_values(Width::Word) {
                check_product(Width::Long, value, by);
            }
        }
    }

    #[test]
    fn products_at_both_ends() {
        for (width, low, by, unsigned, signed) in [
            (Width::Word, 0x80, 0x80, 0x4000, 0x4000),
            (Width::Word, 0x80, 0x7F, 0x3F80, 0xC080),
            (Width::Word, 0xFF, 0xFF, 0xFE01, 0x0001),
            (Width::Long, 0x8000, 0x8000, 0x4000_0000, 0x4000_0000),
            (Width::Long, 0x8000, 0x7FFF, 0x3FFF_8000, 0xC000_8000),
            (Width::Long, 0xFFFF, 0xFFFF, 0xFFFE_0001, 0x0000_0001),
        ] {
            assert_eq!(multiply(width, low, by, false), unsigned);
            assert_eq!(multiply(width, low, by, true), signed);
        }
    }

    /// For each dividend of a word what it divided by a byte leaves: every
    /// quotient that fits is gone through, with every remainder that it can have.
    fn quotients(by: u32, signed: bool) -> Vec<Option<u32>> {
        let mut found = vec![None; 0x1_0000];
        let divisor = Width::Byte.number(by, signed);
        let all = if signed { -0x80..0x80 } else { 0..0x100 };
        for quotient in all {
            for remainder in 1 - divisor.abs()..divisor.abs() {
                let dividend = quotient * divisor + remainder;
                if remainder * dividend < 0 || !signed && remainder < 0 {
                    continue;
                }
                let result = (remainder & 0xFF) << 8 | quotient & 0xFF;
                let place = &mut found[(dividend & 0xFFFF) as usize];
                assert_eq!(*place, None, "{dividend} by {divisor} has two quotients");
                *place = Some(result as u32);
            }
        }
        found
    }

    /// Every dividend by every divisor.
    #[test]
    fn all_quotients_of_bytes() {
        for signed in [false, true] {
            for by in 0..256 {
                for (value, wanted) in (0..).zip(quotients(by, signed)) {
                    let result = divide(Width::Word, value, by, signed);
                    assert_eq!(result, wanted, "{value:X} by {by:X}, signed {signed}");
                }
            }
        }
    }

    /// A quotient of words and a remainder, as they stand in a long.
    fn check_quotient(dividend: i64, divisor: i64, quotient: i64, remainder: i64, signed: bool) {
        let (value, by) = (Width::Long.round(dividend), Width::Word.round(divisor));
        let (low, high) = (Width::Word.round(quotient), Width::Word.round(remainder));
        let wanted = Width::Word
            .holds(quotient, signed)
            .then_some(high << 16 | low);
        let result = divide(Width::Long, value, by, signed);
        assert_eq!(result, wanted, "{dividend} by {divisor}");
    }

    /// Quotients from just within to just beyond what a word holds, with the least
    /// remainder and the greatest.
    #[test]
    fn telling_quotients_of_words() {
        for signed in [false, true] {
            let ends = [0, 1, 0x7FFF, 0x8000, 0x8001, 0xFFFF, 0x1_0000];
            let ends = ends.into_iter().flat_map(|end| [end, -end]);
            let quotients = ends.filter(|&quotient| signed || quotient >= 0);
            for quotient in quotients {
                for by in telling_values(Width::Word) {
                    let divisor = Width::Word.number(by, signed);
                    let greatest = divisor.abs() - 1;
                    // It goes on from the product, away from zero.
                    let away = if quotient * divisor < 0 { -1 } else { 1 };
                    for remainder in [0, away * greatest] {
                        let dividend = quotient * divisor + remainder;
                        if divisor != 0 && Width::Long.holds(dividend, signed) {
                            check_quotient(dividend, divisor, quotient, remainder, signed);
                        }
                    }
                }
            }
        }
    }

    #[test]
    fn nothing_is_divided_by_zero() {
        for signed in [false, true] {
            for value in telling_values(Width::Long) {
                let word = Width::Word.round(i64::from(value));
                assert_eq!(divide(Width::Word, word, 0, signed), None);
                assert_eq!(divide(Width::Long, value, 0, signed), None);
            }
        }
    }

    /// Every table that there is, place after place up and down; and what no step
    /// of the table comes to.
    #[test]
    fn modulo_steps_of_every_word() {
        for step in [1_u32, 2, 4] {
            let numbers = (1..=15).map(|n| 1 << n);
            for number in numbers.filter(|&number: &u32| number > step) {
                let (by, table) = (i64::from(step), i64::from(number));
                for first in (0..0x1_0000).step_by(number as usize) {
                    let places: Vec<u32> = (first..first + number).step_by(step as usize).collect();
                    let next = places.iter().cycle().skip(1);
                    for (&place, &next) in places.iter().zip(next) {
                        assert_eq!(cycle(place, by, table), next);
                        assert_eq!(cycle(next, -by, table), place);
                    }
                }
                for value in (0..0x1_0000).filter(|value| value % step != 0) {
                    let up = (value + step) & 0xFFFF;
                    assert_eq!(cycle(value, by, table), up);
                    assert_eq!(cycle(up, -by, table), value);
                }
            }
        }
    }
}
