//! Doubles as they stand in expected outputs.

/// The bits of a double as 16 hexadecimal digits; of a NaN no bits are told.
pub fn bits(x: f64) -> String {
    if x.is_nan() {
        "NAN".to_string()
    } else {
        format!("{:016X}", x.to_bits())
    }
}
