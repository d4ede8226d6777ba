//! The operators, for both interpreters.

pub fn operate(operator: u32, a: u32, b: u32) -> u32 {
    match operator {
        0 => a.wrapping_add(b),
        1 => a.wrapping_sub(b),
        2 => a.wrapping_mul(b),
        3 => a.checked_div(b).unwrap_or(u32::MAX),
        4 => u32::from(a == b),
        _ => u32::from(a < b),
    }
}
