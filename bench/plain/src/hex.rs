//! Hexadecimal digits that are read.

/// Of each byte the value as a digit of either case.
const VALUES: [Option<u8>; 256] = {
    let digits = *b"0123456789abcdef";
    let mut values = [None; 256];
    let mut value = 0;
    while value < 16 {
        let digit = digits[value];
        values[digit as usize] = Some(value as u8);
        values[digit.to_ascii_uppercase() as usize] = Some(value as u8);
        value += 1;
    }
    values
};

fn pair(high: u8, low: u8) -> Option<u8> {
    Some(VALUES[usize::from(high)]? << 4 | VALUES[usize::from(low)]?)
}

/// The byte that two digits are.
pub fn byte(digits: &[u8]) -> Option<u8> {
    match *digits {
        [high, low] => pair(high, low),
        _ => None,
    }
}

/// The bytes that an even number of digits is.
pub fn bytes(digits: &[u8]) -> Option<Vec<u8>> {
    let (pairs, rest) = digits.as_chunks();
    if !rest.is_empty() {
        return None;
    }
    let mut bytes = Vec::with_capacity(pairs.len());
    for [high, low] in pairs {
        bytes.push(pair(*high, *low)?);
    }
    Some(bytes)
}
