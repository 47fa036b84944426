//! `/`, `rem` and `mod` (change request 2, "As in IEEE 1076"), over numbers that hold the quotient of
//! any two integers. The divisor is not 0.

/// "`/` cuts toward zero": IEEE 1076 has (-A) / B = -(A / B) = A / (-B), so the sizes are divided.
pub fn quotient(left: i64, right: i64) -> i64 {
    let size = left.abs() / right.abs();
    match (left < 0) == (right < 0) {
        true => size,
        false => -size,
    }
}

/// "`rem` has the sign of the left operand": IEEE 1076 has A = (A / B) * B + (A rem B).
pub fn remainder(left: i64, right: i64) -> i64 {
    left - quotient(left, right) * right
}

/// "and `mod` that of the right": IEEE 1076 has A = B * N + (A mod B) for some N, the result being
/// nearer to 0 than B. Euclid's remainder is that, but for its sign, which is never `-`.
pub fn modulus(left: i64, right: i64) -> i64 {
    let rest = left.rem_euclid(right);
    match right < 0 && rest > 0 {
        true => rest + right,
        false => rest,
    }
}
