//! The oracle of the port: the Rust of docs/src behind plain functions, and
//! the writer of the fixed lists.

pub mod calls;
pub mod differences;
pub mod hunt;
pub mod lists;
pub mod marked;
pub mod padding;
pub mod pictures;
pub mod random;
pub mod road;
pub mod rules;
pub mod rust_or_rule;
pub mod types;
pub mod words;

/// docs/src, all of it unchanged: SIMD and rayon off, optimised. This is the
/// one to time.
#[allow(clippy::field_reassign_with_default)]
pub mod plain {
    use chess_corners_core as rust;

    /// The crate itself, for a caller that times it.
    pub use chess_corners_core as original;

    include!("drive.rs");
}

/// The same with `ring.rs` alone replaced: the ring is the one lent last.
#[allow(clippy::field_reassign_with_default)]
pub mod any_ring {
    use chess_corners_core_any_ring as rust;
    include!("drive.rs");

    /// The ring of every later response call on this thread.
    pub fn lend_ring(radius: u32, ring: &Ring) {
        rust::estimate_noise_sigma_u8::lend_ring(radius, ring)
    }
}

/// The same with overflow checks and debug assertions on, so that a wrap is
/// seen as a panic. `ring.rs` is replaced here too.
#[allow(clippy::field_reassign_with_default)]
pub mod checked {
    use chess_corners_core_checked as rust;
    include!("drive.rs");

    /// The ring of every later response call on this thread.
    pub fn lend_ring(radius: u32, ring: &Ring) {
        rust::estimate_noise_sigma_u8::lend_ring(radius, ring)
    }
}

/// The seed number of the stored lists.
pub const SEED: u64 = 1;
