//! Stands in for the noise estimate, which the port leaves out. `lib.rs`
//! exports one name from here; it is a module, and through it the oracle
//! reaches the child modules that the stub macros add.

#[allow(non_snake_case, missing_docs)]
pub mod estimate_noise_sigma_u8 {
    pub use crate::detect::chess::response::oracle_probe as response;
    pub use crate::detect::dense::merge_probe as merge;
    pub use crate::refine::saddle_point::oracle_probe as saddle_point;

    #[cfg(feature = "any-ring")]
    pub use crate::detect::chess::ring::lend_ring;
}
