//! A safe Rust form of the proved library's three C calls, and what its trials share.
//!
//! `boundary` holds the calls. `lent` makes rooms whose every byte is known before a call, and
//! `trial` holds what a call left to document 01's rules.
#![deny(unsafe_code)]

#[allow(unsafe_code)]
mod boundary;
pub mod lent;
pub mod trial;

pub use boundary::{check, drive, parse, CallResult};

use chamrolak_rules::tables::Payloads;

/// A call's tables: the payloads of record kinds 1 to 7 of document 01's file.
#[derive(Clone, Copy)]
pub struct TableSlices<'a> {
    pub sizes: &'a [u8],
    pub actions: &'a [u8],
    pub gotos: &'a [u8],
    pub productions: &'a [u8],
    pub rights: &'a [u8],
    pub items: &'a [u8],
    pub sets: &'a [u8],
}

impl<'a> From<&'a Payloads> for TableSlices<'a> {
    fn from(payloads: &'a Payloads) -> TableSlices<'a> {
        TableSlices {
            sizes: &payloads.sizes,
            actions: &payloads.actions,
            gotos: &payloads.gotos,
            productions: &payloads.productions,
            rights: &payloads.right_sides,
            items: &payloads.items,
            sets: &payloads.first_sets,
        }
    }
}

/// What is parsed, and how many looks at action cells it may cost.
#[derive(Clone, Copy)]
pub struct Input<'a> {
    /// Triples of little-endian 32-bit words: kind, start, end.
    pub tokens: &'a [u8],
    pub start_location: u32,
    pub budget: u32,
}

/// The rooms that a call may write. It counts them in whole entries.
pub struct Rooms<'a> {
    pub stack: &'a mut [u8],
    pub scratch: &'a mut [u8],
    pub nodes: &'a mut [u8],
    pub children: &'a mut [u8],
    pub records: &'a mut [u8],
    pub report: &'a mut [u8; REPORT_BYTES],
}

/// Bytes of one entry of each room.
pub const STACK_BYTES: usize = 32;
pub const SCRATCH_BYTES: usize = 4;
pub const NODE_BYTES: usize = 32;
pub const CHILD_BYTES: usize = 4;
pub const RECORD_BYTES: usize = 64;
pub const REPORT_BYTES: usize = 64;
