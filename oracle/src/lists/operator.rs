//! The fit operators of radius 0 to 7.

use super::*;
use crate::checked;

pub fn list(_seed: u64) -> List {
    let mut list = List::new("operator");
    for radius in 0..=7 {
        let mut case = Case::new();
        case.int(radius);
        match calls::operator(radius) {
            None => {
                assert!(radius == 0 && checked::operator(radius).is_none());
                case.flag(false);
                list.tally("no operator");
            }
            Some(op) => {
                let side = (2 * radius + 1) as usize;
                assert!(op.columns.len() == side * side);
                case.flag(true).count(side);
                for v in op.inverse.iter().flatten() {
                    case.double(*v);
                }
                for column in &op.columns {
                    case.floats(column);
                }
                for row in op.overlap.iter().flatten() {
                    case.floats(row);
                }
                list.tally("an operator");
            }
        }
        list.push(&case);
    }
    list
}
