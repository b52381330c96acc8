//! What is compared, group by group. Each group counts as one test.

mod arithmetic;
mod banks;
mod blocks;
mod codes;
mod ends;
mod examples;
mod feed;
mod flow;
mod marks;
mod memories;
mod misuse;
mod moves;
mod records;
mod requests;
mod runs;
mod straddles;

use crate::judge::Judge;
use draw::chance::Chance;

/// What a group works with. Everything in it hangs on the seed alone.
pub struct Bench<'a> {
    pub judge: &'a mut Judge,
    pub chance: Chance,
    /// How many times the drawn cases are drawn anew.
    pub rounds: u32,
    /// Whether a part stands for all where there are tens of millions of steps.
    pub sparse: bool,
}

/// A name and what is compared under it.
pub struct Group(pub &'static str, pub fn(&mut Bench));

pub const GROUPS: &[Group] = &[
    Group("examples", examples::all),
    Group("first-two-bytes-in-ram", codes::first_two_bytes_in_ram),
    Group("first-two-bytes-in-rom", codes::first_two_bytes_in_rom),
    Group("last-code-byte", codes::last_code_byte),
    Group("listed-forms", codes::listed_forms),
    Group("full-memories", codes::full_memories),
    Group("every-register-code", banks::every_code),
    Group("any-register-drawn", banks::drawn),
    Group("register-codes-cut", banks::cut),
    Group("every-byte-div", feed::every_byte_div),
    Group("every-byte-divs", feed::every_byte_divs),
    Group("every-byte-product", feed::every_byte_product),
    Group("byte-quotients-at-the-ends", feed::byte_quotient_ends),
    Group("word-products", feed::word_products),
    Group("word-quotients", feed::word_quotients),
    Group("modulo-steps", feed::every_word),
    Group("modulo-numbers", feed::every_number),
    Group("feed-operand-codes", feed::every_operand),
    Group("feed-codes-cut", feed::cut_codes),
    Group("all-byte-pairs", arithmetic::all_byte_pairs),
    Group("turning-values", arithmetic::turning_values),
    Group("counts-shifts-extensions", arithmetic::one_operand),
    Group("conditions", flow::conditions),
    Group("flag-codes", flow::flag_codes),
    Group("every-word-as-sr", flow::every_status),
    Group("far-jumps", flow::far_jumps),
    Group("operands-at-the-ends", ends::operands),
    Group("stack-at-the-ends", ends::stack),
    Group("code-at-the-ends", ends::code),
    Group("over-the-end-of-ram", straddles::end_of_ram),
    Group("over-the-start-of-rom", straddles::start_of_rom),
    Group("over-the-top", straddles::top),
    Group("over-65536-bytes-of-ram", straddles::end_of_most_ram),
    Group("without-ram", straddles::no_ram),
    Group("without-rom", straddles::no_rom),
    Group("without-any-memory", straddles::no_memory),
    Group("marks-and-jumps", marks::jumps),
    Group("marks-and-push-f", marks::pushes),
    Group("marks-exchanged", marks::exchanges),
    Group("marks-in-runs", marks::runs),
    Group("block-rounds", blocks::rounds),
    Group("overlapping-copies", blocks::overlapping_copies),
    Group("repeats-by-hand", blocks::repeats_by_hand),
    Group("repeats-cut-short", blocks::repeats_cut_short),
    Group("large-repeats", blocks::large_repeats),
    Group("request-levels", requests::levels),
    Group("requests-drawn", requests::drawn),
    Group("request-vectors-and-stacks", requests::vectors_and_stacks),
    Group("vector-in-the-stack", requests::overlaps),
    Group("requests-nested", requests::nested),
    Group("requests-and-marks", requests::marks),
    Group("requests-between-steps", requests::between_steps),
    Group("requests-in-repeats", requests::in_repeats),
    Group("record-bits", records::bits),
    Group("record-lengths", records::lengths),
    Group("move-bits", moves::bits),
    Group("move-lengths", moves::lengths),
    Group("move-noise", moves::noise),
    Group("moves-and-back", moves::and_back),
    Group("moves-after-steps", moves::after_steps),
    Group("memory-lengths", memories::lengths),
    Group("reset", memories::reset),
    Group("show", memories::show),
    Group("noise-runs", runs::noise),
    Group("strung-instructions", runs::strung),
    Group("run-lengths", runs::lengths),
    Group("runs-as-steps", runs::as_steps),
    Group("misuse", misuse::all),
];
