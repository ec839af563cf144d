//! What the static library exports; include/lindypo.h has the same for C.
//!
//! A slice passes as a pointer and a length. Nothing compares these
//! declarations with the Rattle source: the tests of `checks` do.

use super::{Part, Printed, Reply};

extern "C" {
    pub fn lindypo_read(
        text: *const u8,
        text_length: usize,
        table: *mut i64,
        table_length: usize,
    ) -> Reply;

    pub fn lindypo_name(
        text: *const u8,
        text_length: usize,
        table: *mut i64,
        table_length: usize,
        label: i64,
    ) -> Part;

    pub fn lindypo_plan(
        text: *const u8,
        text_length: usize,
        table: *mut i64,
        table_length: usize,
        plan: *mut i64,
        plan_length: usize,
    ) -> Reply;

    pub fn lindypo_run(
        text: *const u8,
        text_length: usize,
        table: *mut i64,
        table_length: usize,
        plan: *mut i64,
        plan_length: usize,
        results: *mut i64,
        results_length: usize,
    ) -> Reply;

    pub fn lindypo_follow(
        text: *const u8,
        text_length: usize,
        order: *const i64,
        order_length: usize,
        table: *mut i64,
        table_length: usize,
        results: *mut i64,
        results_length: usize,
    ) -> Reply;

    pub fn lindypo_retouch(
        text: *const u8,
        text_length: usize,
        pairs: *const i64,
        pairs_length: usize,
        table: *mut i64,
        table_length: usize,
        plan: *mut i64,
        plan_length: usize,
        results: *mut i64,
        results_length: usize,
        changes: *mut i64,
        changes_length: usize,
    ) -> Reply;

    pub fn lindypo_print(
        text: *const u8,
        text_length: usize,
        out: *mut u8,
        out_length: usize,
    ) -> Printed;
}
