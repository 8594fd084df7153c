//! Rooms for trials: every byte is known before the call, inside a room and around it, so that
//! afterwards each byte that changed shows.

use crate::{
    Rooms, CHILD_BYTES, NODE_BYTES, RECORD_BYTES, REPORT_BYTES, SCRATCH_BYTES, STACK_BYTES,
};
use chamrolak_rules::answer::{Limits, Run};

/// Bytes before and behind each room that no call may change. An odd number, so that a room begins at
/// an odd address.
const GUARD_BYTES: usize = 61;

/// How many bytes each room is lent with.
#[derive(Clone, Copy, Debug, PartialEq, Eq)]
pub struct RoomBytes {
    pub stack: usize,
    pub scratch: usize,
    pub nodes: usize,
    pub children: usize,
    pub records: usize,
}

impl RoomBytes {
    /// Exactly so many entries in each room.
    pub fn for_entries(depth: usize, children: usize, nodes: usize, records: usize) -> RoomBytes {
        RoomBytes {
            stack: depth * STACK_BYTES,
            scratch: depth * SCRATCH_BYTES,
            nodes: nodes * NODE_BYTES,
            children: children * CHILD_BYTES,
            records: records * RECORD_BYTES,
        }
    }

    /// What this run filled, and not an entry more.
    pub fn filled_by(run: &Run, deepest: usize) -> RoomBytes {
        let (children, nodes) = (run.child_entries.len(), run.nodes.len());
        RoomBytes::for_entries(deepest, children, nodes, run.records.len())
    }

    /// Enough for every run of so many units: a look makes at most one node and one state, and no
    /// node is a child twice.
    pub fn enough_for(units: usize) -> RoomBytes {
        RoomBytes::for_entries(units + 1, units, units, units)
    }

    /// So many bytes more in each room.
    pub fn and(self, more: usize) -> RoomBytes {
        RoomBytes {
            stack: self.stack + more,
            scratch: self.scratch + more,
            nodes: self.nodes + more,
            children: self.children + more,
            records: self.records + more,
        }
    }

    /// "Lent lengths in whole entries"; depth "is the shorter of stack and scratch room".
    pub fn limits(&self, budget: u32) -> Limits {
        Limits {
            budget: budget.into(),
            depth: (self.stack / STACK_BYTES).min(self.scratch / SCRATCH_BYTES),
            child_entries: self.children / CHILD_BYTES,
            nodes: self.nodes / NODE_BYTES,
            records: self.records / RECORD_BYTES,
        }
    }
}

/// One room with its guards.
pub struct Room {
    bytes: Vec<u8>,
}

impl Room {
    fn new(length: usize) -> Room {
        let bytes = (0..length + 2 * GUARD_BYTES).map(filling).collect();
        Room { bytes }
    }

    fn lend(&mut self) -> &mut [u8] {
        let end = self.bytes.len() - GUARD_BYTES;
        &mut self.bytes[GUARD_BYTES..end]
    }

    pub fn length(&self) -> usize {
        self.bytes.len() - 2 * GUARD_BYTES
    }

    fn read(&self) -> &[u8] {
        &self.bytes[GUARD_BYTES..][..self.length()]
    }

    /// The whole words of the room.
    pub fn words(&self) -> Vec<u32> {
        let word = |bytes: &[u8]| u32::from_le_bytes(bytes.try_into().expect("four bytes"));
        self.read().chunks_exact(4).map(word).collect()
    }

    /// The first byte, counted from the room's, that is not as it was; those of the room itself are
    /// looked at from a place on. A guard before the room has a negative number.
    pub fn first_change(&self, from: usize) -> Option<isize> {
        let in_question = |place: &usize| {
            let of_room = GUARD_BYTES..GUARD_BYTES + from.min(self.length());
            !of_room.contains(place)
        };
        (0..self.bytes.len())
            .filter(in_question)
            .find(|&place| self.bytes[place] != filling(place))
            .map(|place| place as isize - GUARD_BYTES as isize)
    }
}

/// What stands at a place before the call; neighbours differ, and so do words.
fn filling(place: usize) -> u8 {
    (place as u8).wrapping_mul(37) ^ 0xa5 ^ (place >> 8) as u8
}

/// All rooms of a call.
pub struct LentRooms {
    pub stack: Room,
    pub scratch: Room,
    pub nodes: Room,
    pub children: Room,
    pub records: Room,
    pub report: Room,
}

impl LentRooms {
    pub fn new(lengths: &RoomBytes) -> LentRooms {
        LentRooms {
            stack: Room::new(lengths.stack),
            scratch: Room::new(lengths.scratch),
            nodes: Room::new(lengths.nodes),
            children: Room::new(lengths.children),
            records: Room::new(lengths.records),
            report: Room::new(REPORT_BYTES),
        }
    }

    pub fn lend(&mut self) -> Rooms<'_> {
        let report = self.report.lend();
        Rooms {
            stack: self.stack.lend(),
            scratch: self.scratch.lend(),
            nodes: self.nodes.lend(),
            children: self.children.lend(),
            records: self.records.lend(),
            report: report.try_into().expect("64 bytes"),
        }
    }

    /// Every room by its name, for those that look at all of them.
    pub fn named(&self) -> [(&'static str, &Room); 6] {
        [
            ("stack", &self.stack),
            ("scratch", &self.scratch),
            ("nodes", &self.nodes),
            ("children", &self.children),
            ("records", &self.records),
            ("report", &self.report),
        ]
    }
}
