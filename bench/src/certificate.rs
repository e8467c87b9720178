//! Certificates made to measure (RFC 5280 4.1): all of the right shape, and none signed by anyone.

use crate::der::{
    element, nested, set_of, BIT_STRING, BOOLEAN, INTEGER, NULL, OBJECT_IDENTIFIER, OCTET_STRING,
    SEQUENCE, UTC_TIME, UTF8_STRING,
};

/// id-at-commonName.
const COMMON_NAME: &[u8] = &[0x55, 0x04, 0x03];

/// id-ce-basicConstraints.
const BASIC_CONSTRAINTS: &[u8] = &[0x55, 0x1D, 0x13];

/// rsaEncryption.
const RSA: &[u8] = &[0x2A, 0x86, 0x48, 0x86, 0xF7, 0x0D, 0x01, 0x01, 0x01];

/// sha256WithRSAEncryption.
pub const SHA256_RSA: &[u8] = &[0x2A, 0x86, 0x48, 0x86, 0xF7, 0x0D, 0x01, 0x01, 0x0B];

/// A certificate of version 3 with a subject and extensions.
pub fn certificate(subject: &[u8], extensions: &[Vec<u8>]) -> Vec<u8> {
    let tbs = nested(
        SEQUENCE,
        &[
            element(0xA0, &element(INTEGER, &[2])),
            element(INTEGER, &[1]),
            algorithm(SHA256_RSA),
            issuer(),
            validity(),
            subject.to_vec(),
            public_key(),
            element(0xA3, &nested(SEQUENCE, extensions)),
        ],
    );
    let signature = element(BIT_STRING, &[0, 1, 2, 3, 4]);
    nested(SEQUENCE, &[tbs, algorithm(SHA256_RSA), signature])
}

/// CN=R.
pub fn issuer() -> Vec<u8> {
    nested(SEQUENCE, &[set_of(vec![attribute(COMMON_NAME, b"R")])])
}

/// An attribute of a name, whose value is text.
pub fn attribute(kind: &[u8], text: &[u8]) -> Vec<u8> {
    nested(
        SEQUENCE,
        &[element(OBJECT_IDENTIFIER, kind), element(UTF8_STRING, text)],
    )
}

/// An extension that is not critical.
pub fn extension(kind: &[u8], value: &[u8]) -> Vec<u8> {
    nested(
        SEQUENCE,
        &[
            element(OBJECT_IDENTIFIER, kind),
            element(OCTET_STRING, value),
        ],
    )
}

/// An extension that is critical.
pub fn critical(kind: &[u8], value: &[u8]) -> Vec<u8> {
    nested(
        SEQUENCE,
        &[
            element(OBJECT_IDENTIFIER, kind),
            element(BOOLEAN, &[0xFF]),
            element(OCTET_STRING, value),
        ],
    )
}

/// The extension of a certification authority.
pub fn authority() -> Vec<u8> {
    critical(
        BASIC_CONSTRAINTS,
        &element(SEQUENCE, &element(BOOLEAN, &[0xFF])),
    )
}

pub fn algorithm(kind: &[u8]) -> Vec<u8> {
    nested(
        SEQUENCE,
        &[element(OBJECT_IDENTIFIER, kind), element(NULL, &[])],
    )
}

fn validity() -> Vec<u8> {
    let times = [b"260101000000Z", b"270101000000Z"];
    nested(SEQUENCE, &times.map(|it| element(UTC_TIME, it)))
}

/// The key with modulus 143 and exponent 7.
fn public_key() -> Vec<u8> {
    let numbers = [element(INTEGER, &[0, 143]), element(INTEGER, &[7])];
    let bits = [vec![0], nested(SEQUENCE, &numbers)].concat();
    nested(SEQUENCE, &[algorithm(RSA), element(BIT_STRING, &bits)])
}
