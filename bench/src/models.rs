//! Queries of the model list. The checksum has every name that is listed, in order.

use crate::checksum::next;
use motor_vendor_damiao::motor::{match_models_by_limits, suggest_models_by_limits};

#[inline(never)]
pub fn matching(queries: &[[f32; 5]]) -> u64 {
    let mut sum = 0;
    for &[p, v, t, tolerance, _] in queries {
        sum = next(
            sum,
            names_total(&match_models_by_limits(p, v, t, tolerance)),
        );
    }
    sum
}

#[inline(never)]
pub fn suggest(queries: &[[f32; 5]]) -> u64 {
    let mut sum = 0;
    for &[p, v, t, ..] in queries {
        sum = next(sum, names_total(&suggest_models_by_limits(p, v, t, 3)));
    }
    sum
}

/// A name counts by its length and its first four bytes.
fn names_total(names: &[&str]) -> u64 {
    names.iter().fold(0, |sum, name| {
        let first = name.as_bytes()[..4].try_into().expect("four bytes");
        next(
            sum,
            name.len() as u64 + (u64::from(u32::from_le_bytes(first)) << 8),
        )
    })
}
