//! Arithmetic on cells.

/// The cell that an exact result wraps to, and the carry or borrow: 1 where the exact result is no cell's value.
pub fn wrapped(exact: i64) -> (u32, u32) {
    (exact as u32, u32::from(!(0..1 << 32).contains(&exact)))
}

/// True is all ones.
pub fn truth(condition: bool) -> u32 {
    if condition {
        u32::MAX
    } else {
        0
    }
}

/// The low cell and the high cell of a product.
pub fn halves(product: u64) -> (u32, u32) {
    (product as u32, (product >> 32) as u32)
}

pub fn multiply_signed(a: u32, b: u32) -> (u32, u32) {
    let product = i64::from(a as i32) * i64::from(b as i32);
    halves(product as u64)
}

pub fn multiply_unsigned(a: u32, b: u32) -> (u32, u32) {
    halves(u64::from(a) * u64::from(b))
}

/// Remainder and quotient, cut toward zero. The lowest number divided by -1 wraps to itself.
pub fn divide_signed(a: u32, b: u32) -> (u32, u32) {
    let (a, b) = (a as i32, b as i32);
    (a.wrapping_rem(b) as u32, a.wrapping_div(b) as u32)
}

pub fn divide_unsigned(a: u32, b: u32) -> (u32, u32) {
    (a % b, a / b)
}
