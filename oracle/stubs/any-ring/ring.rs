//! Stands in for `ring.rs` where arbitrary rings are driven: the ring is the
//! one lent last on this thread, whatever radius is asked for. It is the only
//! file of docs/src that is ever replaced, and only in the builds whose name
//! says so.

use std::cell::Cell;

#[derive(Clone, Copy, Debug, PartialEq, Eq)]
pub(crate) struct RingOffsets {
    radius: u32,
    offsets: &'static [(i32, i32); 16],
}

thread_local! {
    static LENT: Cell<RingOffsets> = const {
        Cell::new(RingOffsets { radius: 1, offsets: &[(0, 0); 16] })
    };
}

/// The ring of every later call on this thread.
pub fn lend_ring(radius: u32, offsets: &[(i32, i32); 16]) {
    LENT.with(|lent| {
        if *lent.get().offsets != *offsets || lent.get().radius != radius {
            lent.set(RingOffsets {
                radius,
                offsets: Box::leak(Box::new(*offsets)),
            });
        }
    });
}

impl RingOffsets {
    pub fn radius(self) -> u32 {
        self.radius
    }

    pub fn offsets(self) -> &'static [(i32, i32); 16] {
        self.offsets
    }

    pub fn from_radius(_radius: u32) -> Self {
        LENT.with(Cell::get)
    }
}
