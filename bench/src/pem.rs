//! PEM (RFC 7468), as far as the files of `ca-certificates` use it: one certificate for each file.

use std::fmt;

/// Why a file holds no certificate.
#[derive(Clone, Copy, Debug, PartialEq, Eq)]
pub enum PemFault {
    /// A line that opens or closes the certificate is not there.
    Frame,
    /// A character that is none of base64.
    Character,
}

impl fmt::Display for PemFault {
    fn fmt(&self, f: &mut fmt::Formatter<'_>) -> fmt::Result {
        f.write_str(match self {
            PemFault::Frame => "no certificate between BEGIN and END",
            PemFault::Character => "a character that is none of base64",
        })
    }
}

impl std::error::Error for PemFault {}

/// The octets of the first certificate of a file.
pub fn octets(text: &str) -> Result<Vec<u8>, PemFault> {
    let (_, behind) = text
        .split_once("-----BEGIN CERTIFICATE-----")
        .ok_or(PemFault::Frame)?;
    let (body, _) = behind
        .split_once("-----END CERTIFICATE-----")
        .ok_or(PemFault::Frame)?;
    base64(body)
}

/// The octets that base64 spells (RFC 4648 section 4). White space is skipped; padding ends it.
fn base64(text: &str) -> Result<Vec<u8>, PemFault> {
    let mut octets = Vec::with_capacity(text.len() / 4 * 3);
    let (mut bits, mut count) = (0_u32, 0);
    for character in text.bytes().filter(|it| !it.is_ascii_whitespace()) {
        if character == b'=' {
            break;
        }
        bits = bits << 6 | u32::from(sextet(character)?);
        count += 6;
        if count >= 8 {
            count -= 8;
            octets.push((bits >> count) as u8);
        }
    }
    Ok(octets)
}

/// The number that a character of base64 stands for.
fn sextet(character: u8) -> Result<u8, PemFault> {
    match character {
        b'A'..=b'Z' => Ok(character - b'A'),
        b'a'..=b'z' => Ok(character - b'a' + 26),
        b'0'..=b'9' => Ok(character - b'0' + 52),
        b'+' => Ok(62),
        b'/' => Ok(63),
        _ => Err(PemFault::Character),
    }
}
