//! Stands in for the Radon detector, which the port leaves out.
#![allow(missing_docs)]

pub mod primitives {
    pub enum PeakFitMode {}
}

pub struct RadonBuffers;
pub struct RadonDetectorParams;
pub struct RadonResponseView;

pub fn detect_peaks_from_radon() {}
pub fn radon_response_u8() {}
