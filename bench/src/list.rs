//! CRLs made to measure (RFC 5280 5.1): all of the right shape, and none signed by anyone.

use crate::certificate::{algorithm, extension, issuer, SHA256_RSA};
use crate::der::{element, nested, BIT_STRING, INTEGER, SEQUENCE, UTC_TIME};

/// id-ce-cRLReasons, and the reason keyCompromise.
const REASON: &[u8] = &[0x55, 0x1D, 0x15];
const KEY_COMPROMISE: &[u8] = &[0x0A, 0x01, 0x01];

/// A serial number of eight octets, the first of which is neither 00 nor FF.
pub fn serial(number: u32) -> Vec<u8> {
    [&[0x5A, 0x5A, 0x5A, 0x5A][..], &number.to_be_bytes()].concat()
}

fn time() -> Vec<u8> {
    element(UTC_TIME, b"260101000000Z")
}

/// An entry, with its extensions if it has any.
pub fn entry(number: u32, extensions: &[Vec<u8>]) -> Vec<u8> {
    let mut parts = vec![element(INTEGER, &serial(number)), time()];
    if !extensions.is_empty() {
        parts.push(nested(SEQUENCE, extensions));
    }
    nested(SEQUENCE, &parts)
}

/// An entry that says why the certificate was revoked.
pub fn reasoned(number: u32) -> Vec<u8> {
    entry(number, &[extension(REASON, KEY_COMPROMISE)])
}

/// A list of version 2.
pub fn list(entries: &[Vec<u8>], extensions: &[Vec<u8>]) -> Vec<u8> {
    let mut parts = vec![
        element(INTEGER, &[1]),
        algorithm(SHA256_RSA),
        issuer(),
        time(),
        time(),
        nested(SEQUENCE, entries),
    ];
    if !extensions.is_empty() {
        parts.push(element(0xA0, &nested(SEQUENCE, extensions)));
    }
    let signature = element(BIT_STRING, &[0, 1, 2, 3, 4]);
    nested(
        SEQUENCE,
        &[nested(SEQUENCE, &parts), algorithm(SHA256_RSA), signature],
    )
}
