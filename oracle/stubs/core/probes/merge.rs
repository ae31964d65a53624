// Child module of detect/merge.rs.
use super::*;

/// The plain scan, private there.
pub fn plain_scan(corners: &mut Vec<Corner>, r2: f32) -> Vec<Corner> {
    merge_corners_naive(corners, r2)
}
