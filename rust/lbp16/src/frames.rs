//! Outputs and recordings taken apart: parts behind "LB" and a length.

/// The parts, where marks and lengths are sound to the end.
pub fn parts(bytes: &[u8]) -> Option<Vec<&[u8]>> {
    let mut parts = Vec::new();
    let mut rest = bytes;
    while !rest.is_empty() {
        let (part, behind) = first(rest)?;
        parts.push(part);
        rest = behind;
    }
    Some(parts)
}

/// The first part, and what is behind it.
pub fn first(bytes: &[u8]) -> Option<(&[u8], &[u8])> {
    let rest = bytes.strip_prefix(b"LB")?;
    let (length, rest) = rest.split_at_checked(2)?;
    rest.split_at_checked(u16::from_le_bytes([length[0], length[1]]).into())
}

/// A part behind its mark and length.
pub fn framed(part: &[u8]) -> Vec<u8> {
    let length = part.len() as u16;
    [b"LB", &length.to_le_bytes()[..], part].concat()
}
