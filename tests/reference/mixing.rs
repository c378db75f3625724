//! The layers of a dot made into one value (01, 'Blocks and layers of a row').

/// MX on dot values; a missing layer 3 is 0.
pub fn mix(mx: u8, dots: [u8; 3]) -> u8 {
    let [l1, l2, l3] = dots;
    match mx {
        0 => l1 | l2 | l3,
        1 => (l1 ^ l2) | l3,
        2 => (l1 & l2) | l3,
        _ => dots.iter().copied().find(|dot| *dot != 0).unwrap_or(0),
    }
}
