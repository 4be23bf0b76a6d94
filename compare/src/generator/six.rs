//! Cases without longer fractions: for a program of nine digits beside one that is kept at six.

/// The text with no more than six digits directly after any point; the others are left out.
pub fn cut(text: &[u8]) -> Vec<u8> {
    const MOST: usize = 6;
    let mut kept = Vec::with_capacity(text.len());
    let mut after_point = None;
    for &byte in text {
        after_point = match (byte, after_point) {
            (b'.', _) => Some(0),
            (b'0'..=b'9', Some(count)) => Some(count + 1),
            _ => None,
        };
        if after_point.is_none_or(|count| count <= MOST) {
            kept.push(byte);
        }
    }
    kept
}
