//! The readers that are compared.

use crate::openssl::Certificate;
use std::fmt;

/// The greatest number of octets that a certificate may have for `Cert::read`.
pub const MAX_CERTIFICATE: usize = 65_536;

/// A reader of certificates: it answers what is wrong with octets that it does not read.
pub trait Reader {
    const NAME: &'static str;

    type Fault: fmt::Display;

    fn read(octets: &[u8]) -> Result<(), Self::Fault>;
}

/// `ts_cert::Cert::read`, as the static library hands it out.
pub struct Ours;

/// What `ts_bench_read` answers.
#[repr(C)]
struct Answer {
    rule: u8,
    at: usize,
}

extern "C" {
    fn ts_bench_read(octets: *const u8, length: usize) -> Answer;
}

/// The rule that `Cert::read` found broken, by its number, and where.
pub struct Fault {
    rule: u8,
    at: usize,
}

impl Reader for Ours {
    const NAME: &'static str = "Cert::read";

    type Fault = Fault;

    fn read(octets: &[u8]) -> Result<(), Fault> {
        // SAFETY: the declaration is that of `crates/ts_bench`, where a slice is a pointer and then a length; these two
        // are those of one slice, which is borrowed for the call. The function requires nothing else.
        let answer = unsafe { ts_bench_read(octets.as_ptr(), octets.len()) };
        match answer {
            Answer { rule: 0, .. } => Ok(()),
            Answer { rule, at } => Err(Fault { rule, at }),
        }
    }
}

/// The names of the rules, by their numbers (`CertRule::code`).
const RULES: [(u8, &str); 24] = [
    (1, "Truncated"),
    (2, "HighTag"),
    (3, "Indefinite"),
    (4, "LongLength"),
    (5, "TooLarge"),
    (6, "WrongTag"),
    (7, "Trailing"),
    (8, "IntegerForm"),
    (9, "BooleanForm"),
    (10, "BitsForm"),
    (11, "NamedBits"),
    (12, "OidForm"),
    (13, "SetOrder"),
    (14, "DefaultEncoded"),
    (15, "TextForm"),
    (16, "TimeForm"),
    (17, "Empty"),
    (32, "AlgorithmMismatch"),
    (33, "DuplicateExtension"),
    (34, "Version"),
    (35, "ExtensionsInOldVersion"),
    (36, "SubtreeBounds"),
    (37, "DuplicatePolicy"),
    (38, "AddressLength"),
];

impl fmt::Display for Fault {
    fn fmt(&self, f: &mut fmt::Formatter<'_>) -> fmt::Result {
        match RULES.iter().find(|(number, _)| *number == self.rule) {
            Some((_, name)) => write!(f, "{name} at {}", self.at),
            None => write!(f, "rule {} at {}", self.rule, self.at),
        }
    }
}

/// `webpki::EndEntityCert::try_from`.
pub struct Webpki;

impl Reader for Webpki {
    const NAME: &'static str = "webpki";

    type Fault = webpki::Error;

    fn read(octets: &[u8]) -> Result<(), webpki::Error> {
        let cert = webpki::EndEntityCert::try_from(octets)?;
        std::hint::black_box(cert);
        Ok(())
    }
}

/// OpenSSL's `d2i_X509`, which takes memory for all that it reads.
pub struct OpenSsl;

impl Reader for OpenSsl {
    const NAME: &'static str = "d2i_X509";

    type Fault = &'static str;

    fn read(octets: &[u8]) -> Result<(), &'static str> {
        let certificate = Certificate::read(octets).ok_or("not read")?;
        std::hint::black_box(certificate);
        Ok(())
    }
}

/// A walk from header to header, into each element that holds others and over each that doesn't. It asks nothing of what it
/// passes. It is one such loop, and no bound for every other.
pub struct Walk;

impl Reader for Walk {
    const NAME: &'static str = "bare walk";

    type Fault = &'static str;

    fn read(octets: &[u8]) -> Result<(), &'static str> {
        let (mut next, mut elements) = (0, 0);
        while next < octets.len() {
            next = behind_header(octets, next).ok_or("no header")?;
            elements += 1;
        }
        std::hint::black_box(elements);
        Ok(())
    }
}

/// Whether an element holds others: a bit of its first octet (X.690 8.1.2.5).
const CONSTRUCTED: u8 = 0x20;

/// Where the next header begins: behind this one, or behind the content where that is no elements.
fn behind_header(octets: &[u8], at: usize) -> Option<usize> {
    let (tag, first) = (*octets.get(at)?, *octets.get(at + 1)?);
    let (length, content) = match usize::from(first) {
        short @ 0..=127 => (short, at + 2),
        long @ 129..=132 => {
            let content = at + 2 + (long - 128);
            let digits = octets.get(at + 2..content)?;
            let length = digits.iter().fold(0, |sum, it| sum << 8 | usize::from(*it));
            (length, content)
        }
        _ => return None,
    };
    Some(match tag & CONSTRUCTED {
        0 => content + length,
        _ => content,
    })
}
