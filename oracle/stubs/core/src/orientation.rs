//! Stands in for the orientation fit, which the port leaves out.
#![allow(missing_docs)]

use crate::detect::{Corner, CornerDescriptor};

#[derive(Clone, Copy, Debug, Default, PartialEq)]
pub enum OrientationMethod {
    #[default]
    RingFit,
}

#[derive(Clone, Copy, Debug)]
pub struct AxisFitResult;

pub fn fit_axes_at_point() -> AxisFitResult {
    unimplemented!("the orientation fit is left out")
}

pub fn describe_corners(
    _img: &[u8],
    _w: usize,
    _h: usize,
    _radius: u32,
    corners: Vec<Corner>,
    _method: Option<OrientationMethod>,
) -> Vec<CornerDescriptor> {
    corners
        .into_iter()
        .map(|c| CornerDescriptor::without_axes(c.x, c.y, c.strength))
        .collect()
}
