//! The C declarations of the library's calls, and a safe function for each. This is the only place
//! with unsafe code; include/chamrolak.h has the same declarations for C.

use crate::{Input, Rooms, TableSlices};

/// What a call returns: `chamrolak_result` of the header.
#[repr(C)]
#[derive(Clone, Copy, Debug, PartialEq, Eq)]
pub struct CallResult {
    /// 0 where a check passes; else the number of a refusal or an answer of document 01.
    pub number: u32,
    /// The place of a refusal; the root, token or location of an answer that has one; else 0.
    pub value: u32,
}

extern "C" {
    fn chamrolak_check(
        sizes: *const u8,
        sizes_length: usize,
        actions: *const u8,
        actions_length: usize,
        gotos: *const u8,
        gotos_length: usize,
        productions: *const u8,
        productions_length: usize,
        rights: *const u8,
        rights_length: usize,
        items: *const u8,
        items_length: usize,
        sets: *const u8,
        sets_length: usize,
    ) -> CallResult;

    fn chamrolak_parse(
        sizes: *const u8,
        sizes_length: usize,
        actions: *const u8,
        actions_length: usize,
        gotos: *const u8,
        gotos_length: usize,
        productions: *const u8,
        productions_length: usize,
        rights: *const u8,
        rights_length: usize,
        items: *const u8,
        items_length: usize,
        sets: *const u8,
        sets_length: usize,
        tokens: *const u8,
        tokens_length: usize,
        start_location: u32,
        budget: u32,
        stack: *mut u8,
        stack_length: usize,
        scratch: *mut u8,
        scratch_length: usize,
        nodes: *mut u8,
        nodes_length: usize,
        children: *mut u8,
        children_length: usize,
        records: *mut u8,
        records_length: usize,
        report: *mut [u8; 64],
    ) -> CallResult;

    fn chamrolak_drive(
        sizes: *const u8,
        sizes_length: usize,
        actions: *const u8,
        actions_length: usize,
        gotos: *const u8,
        gotos_length: usize,
        productions: *const u8,
        productions_length: usize,
        tokens: *const u8,
        tokens_length: usize,
        start_location: u32,
        budget: u32,
        stack: *mut u8,
        stack_length: usize,
        scratch: *mut u8,
        scratch_length: usize,
        nodes: *mut u8,
        nodes_length: usize,
        children: *mut u8,
        children_length: usize,
        records: *mut u8,
        records_length: usize,
        report: *mut [u8; 64],
    ) -> CallResult;
}

/// Judges tables by the tests 10 to 17; number 0 where they pass.
pub fn check(tables: &TableSlices) -> CallResult {
    // Safety: each pointer and length are of one slice, which lives through the call.
    unsafe {
        chamrolak_check(
            tables.sizes.as_ptr(),
            tables.sizes.len(),
            tables.actions.as_ptr(),
            tables.actions.len(),
            tables.gotos.as_ptr(),
            tables.gotos.len(),
            tables.productions.as_ptr(),
            tables.productions.len(),
            tables.rights.as_ptr(),
            tables.rights.len(),
            tables.items.as_ptr(),
            tables.items.len(),
            tables.sets.as_ptr(),
            tables.sets.len(),
        )
    }
}

/// The whole of document 01 in one call: the check, refusal 18, and the run.
pub fn parse(tables: &TableSlices, input: &Input, rooms: Rooms) -> CallResult {
    // Safety: as for `check`; the rooms are exclusive borrows, so that none overlaps another.
    unsafe {
        chamrolak_parse(
            tables.sizes.as_ptr(),
            tables.sizes.len(),
            tables.actions.as_ptr(),
            tables.actions.len(),
            tables.gotos.as_ptr(),
            tables.gotos.len(),
            tables.productions.as_ptr(),
            tables.productions.len(),
            tables.rights.as_ptr(),
            tables.rights.len(),
            tables.items.as_ptr(),
            tables.items.len(),
            tables.sets.as_ptr(),
            tables.sets.len(),
            input.tokens.as_ptr(),
            input.tokens.len(),
            input.start_location,
            input.budget,
            rooms.stack.as_mut_ptr(),
            rooms.stack.len(),
            rooms.scratch.as_mut_ptr(),
            rooms.scratch.len(),
            rooms.nodes.as_mut_ptr(),
            rooms.nodes.len(),
            rooms.children.as_mut_ptr(),
            rooms.children.len(),
            rooms.records.as_mut_ptr(),
            rooms.records.len(),
            rooms.report,
        )
    }
}

/// The run without the check; 18 is judged all the same. Safe on any tables, but its answer says
/// something only of tables that pass the check.
pub fn drive(tables: &TableSlices, input: &Input, rooms: Rooms) -> CallResult {
    // Safety: as for `parse`.
    unsafe {
        chamrolak_drive(
            tables.sizes.as_ptr(),
            tables.sizes.len(),
            tables.actions.as_ptr(),
            tables.actions.len(),
            tables.gotos.as_ptr(),
            tables.gotos.len(),
            tables.productions.as_ptr(),
            tables.productions.len(),
            input.tokens.as_ptr(),
            input.tokens.len(),
            input.start_location,
            input.budget,
            rooms.stack.as_mut_ptr(),
            rooms.stack.len(),
            rooms.scratch.as_mut_ptr(),
            rooms.scratch.len(),
            rooms.nodes.as_mut_ptr(),
            rooms.nodes.len(),
            rooms.children.as_mut_ptr(),
            rooms.children.len(),
            rooms.records.as_mut_ptr(),
            rooms.records.len(),
            rooms.report,
        )
    }
}
