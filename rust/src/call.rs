//! The calls as `include/doilystrand.h` declares them. A slice crosses as its pointer and its length.

use crate::Outcome;

/// The answer of a call with one output: how many bytes it wrote, 0 on a refusal.
#[repr(C)]
pub struct CodedWritten {
    pub outcome: Outcome,
    pub written: usize,
}

/// The words of an outcome, each filled up with zeros, one at least.
#[repr(C)]
#[derive(Clone, Debug)]
pub struct CodedWords {
    pub sentence: [u8; 128],
    pub paper: [u8; 16],
    pub counts: [u8; 16],
}

/// Kind of rule's answer: the kind is 0 for neither, 1 all-runs, 2 some-run, 3 both.
#[repr(C)]
pub struct CodedAnswer {
    pub outcome: Outcome,
    pub kind: u32,
}

/// Where a part of a table begins, and how many bytes it has.
#[repr(C)]
pub struct Place {
    pub start: usize,
    pub size: usize,
}

/// What a chart reader hands out: found is 1 with an arrow's words, and 0 with zeros where it is finished.
#[repr(C)]
pub struct CodedArrow {
    pub found: u32,
    pub start: usize,
    pub end: usize,
    pub fewest: u32,
    pub most: u32,
}

extern "C" {
    #[rustfmt::skip]
    pub fn doilystrand_check(
        chart: *const u8,
        chart_size: usize,
        rule: *const u8,
        rule_size: usize,
        marks: *mut u8,
        marks_size: usize,
        scratch: *mut u32,
        scratch_size: usize,
    ) -> Outcome;
    #[rustfmt::skip]
    pub fn doilystrand_count(
        chart: *const u8,
        chart_size: usize,
        rule: *const u8,
        rule_size: usize,
        marks: *mut u8,
        marks_size: usize,
        scratch: *mut u32,
        scratch_size: usize,
    ) -> Outcome;
    #[rustfmt::skip]
    pub fn doilystrand_show(
        chart: *const u8,
        chart_size: usize,
        rule: *const u8,
        rule_size: usize,
        marks: *mut u8,
        marks_size: usize,
        scratch: *mut u32,
        scratch_size: usize,
        node: usize,
        state: usize,
        output: *mut u8,
        output_size: usize,
    ) -> CodedWritten;
    pub fn doilystrand_kind_of_rule(rule: *const u8, rule_size: usize) -> CodedAnswer;
    pub fn doilystrand_read_rule(
        text: *const u8,
        text_size: usize,
        output: *mut u8,
        output_size: usize,
    ) -> CodedWritten;
    pub fn doilystrand_write_rule(
        rule: *const u8,
        rule_size: usize,
        output: *mut u8,
        output_size: usize,
    ) -> CodedWritten;
    #[rustfmt::skip]
    pub fn doilystrand_map_check(
        detail: *const u8,
        detail_size: usize,
        overview: *const u8,
        overview_size: usize,
        map: *const u8,
        map_size: usize,
    ) -> Outcome;
    pub fn doilystrand_row(overview_size: usize, detail_size: usize, choice: bool, n: usize, t: usize) -> Place;
    pub fn doilystrand_arrow(chart: *const u8, chart_size: usize, number: usize) -> CodedArrow;
    pub fn doilystrand_words_of(outcome: Outcome) -> CodedWords;
}
