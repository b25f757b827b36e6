//! Document 01: "`mul_add!(a, b, c)`: the product is rounded, then the sum is rounded."
macro_rules! mul_add {
    ($a:expr, $b:expr, $c:expr) => {
        $a * $b + $c
    };
}
pub(crate) use mul_add;
