//! A writer of DER, as far as the certificates need it that the benchmark makes.

pub const BOOLEAN: u8 = 0x01;
pub const INTEGER: u8 = 0x02;
pub const BIT_STRING: u8 = 0x03;
pub const OCTET_STRING: u8 = 0x04;
pub const NULL: u8 = 0x05;
pub const OBJECT_IDENTIFIER: u8 = 0x06;
pub const UTF8_STRING: u8 = 0x0C;
pub const UTC_TIME: u8 = 0x17;
pub const SEQUENCE: u8 = 0x30;
pub const SET: u8 = 0x31;

/// An element: its tag, its length in as few octets as can be, its content.
pub fn element(tag: u8, content: &[u8]) -> Vec<u8> {
    let mut octets = vec![tag];
    match content.len() {
        short @ 0..=127 => octets.push(short as u8),
        long => {
            let number = long.to_be_bytes();
            let shortest = &number[long.leading_zeros() as usize / 8..];
            octets.push(0x80 | shortest.len() as u8);
            octets.extend_from_slice(shortest);
        }
    }
    octets.extend_from_slice(content);
    octets
}

/// An element that holds others.
pub fn nested<P: AsRef<[u8]>>(tag: u8, parts: &[P]) -> Vec<u8> {
    let parts: Vec<&[u8]> = parts.iter().map(AsRef::as_ref).collect();
    element(tag, &parts.concat())
}

/// A SET OF, in the order that DER asks for (X.690 11.6).
///
/// That order puts no element before one of which it is the beginning, so for whole elements it is that of slices.
pub fn set_of(mut parts: Vec<Vec<u8>>) -> Vec<u8> {
    parts.sort();
    nested(SET, &parts)
}
