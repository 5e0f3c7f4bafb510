//! docs/NETSTRINGS.md. A length is well written exactly when it is how its number is printed.

use std::str;

/// The content of the netstring at a place, and the place behind it.
pub fn read(text: &[u8], at: usize) -> Option<(&[u8], usize)> {
    let rest = text.get(at..)?;
    let colon = rest.iter().position(|byte| *byte == b':')?;
    let len = number(&rest[..colon])?;
    let content = rest.get(colon + 1..)?.get(..len)?;
    let comma = colon + 1 + len;
    (rest.get(comma) == Some(&b',')).then_some((content, at + comma + 1))
}

pub fn write(content: &[u8]) -> Vec<u8> {
    let mut netstring = format!("{}:", content.len()).into_bytes();
    netstring.extend(content);
    netstring.push(b',');
    netstring
}

/// The number that digits are, if they are one without leading zeros that fits.
pub fn number(digits: &[u8]) -> Option<usize> {
    let number: usize = str::from_utf8(digits).ok()?.parse().ok()?;
    (number.to_string().as_bytes() == digits).then_some(number)
}
