//! Times the check of a signature beside OpenSSL's `EVP_DigestVerify`, for each algorithm: on keys and signatures of a
//! folder, which `bench/signatures` makes.

#[path = "../evp.rs"]
mod evp;

use evp::PublicKey;
use std::error::Error;
use std::hint::black_box;
use std::path::{Path, PathBuf};
use std::time::Instant;
use std::{env, fs};

/// How often each side is timed, by turns.
const ROUNDS: usize = 200;

/// How many checks are timed at once.
const CHECKS: u32 = 20;

/// The name of an algorithm, its AlgorithmIdentifier, and OpenSSL's name of its hash.
const ALGORITHMS: [(&str, &[u8], Option<&str>); 6] = [
    ("RSA-2048", RSA_SHA256, Some("SHA256")),
    ("RSA-4096", RSA_SHA256, Some("SHA256")),
    ("P-256", ECDSA_SHA256, Some("SHA256")),
    ("P-384", ECDSA_SHA384, Some("SHA384")),
    ("P-521", ECDSA_SHA512, Some("SHA512")),
    ("Ed25519", ED25519, None),
];

/// sha256WithRSAEncryption with the parameters NULL (RFC 4055 5).
const RSA_SHA256: &[u8] = b"\x30\x0d\x06\x09\x2a\x86\x48\x86\xf7\x0d\x01\x01\x0b\x05\x00";

/// ecdsa-with-SHA256, ecdsa-with-SHA384 and ecdsa-with-SHA512 (RFC 5758 3.2).
const ECDSA_SHA256: &[u8] = b"\x30\x0a\x06\x08\x2a\x86\x48\xce\x3d\x04\x03\x02";
const ECDSA_SHA384: &[u8] = b"\x30\x0a\x06\x08\x2a\x86\x48\xce\x3d\x04\x03\x03";
const ECDSA_SHA512: &[u8] = b"\x30\x0a\x06\x08\x2a\x86\x48\xce\x3d\x04\x03\x04";

/// id-Ed25519 (RFC 8410 3).
const ED25519: &[u8] = b"\x30\x05\x06\x03\x2b\x65\x70";

extern "C" {
    fn ts_bench_check(
        algorithm: *const u8,
        algorithm_length: usize,
        key_algorithm: *const u8,
        key_algorithm_length: usize,
        key_parameters: *const u8,
        key_parameters_length: usize,
        key: *const u8,
        key_length: usize,
        signed: *const u8,
        signed_length: usize,
        signature: *const u8,
        signature_length: usize,
    ) -> bool;
}

/// The parts of a SubjectPublicKeyInfo (RFC 5280 4.1.2.7).
struct Key<'a> {
    /// The content of the OBJECT IDENTIFIER of its algorithm.
    algorithm: &'a [u8],
    /// The whole element of its parameters; empty where there are none.
    parameters: &'a [u8],
    octets: &'a [u8],
}

/// The content of the first element of some octets, and what follows it.
fn element(octets: &[u8]) -> (&[u8], &[u8]) {
    let (header, length) = match octets[1] {
        short @ 0..=0x7f => (2, short as usize),
        long => {
            let more = (long & 0x7f) as usize;
            let number = octets[2..2 + more].iter();
            (
                2 + more,
                number.fold(0, |n, octet| n << 8 | *octet as usize),
            )
        }
    };
    octets[header..].split_at(length)
}

impl<'a> Key<'a> {
    fn of(info: &'a [u8]) -> Key<'a> {
        let (parts, _) = element(info);
        let (identifier, rest) = element(parts);
        let (algorithm, parameters) = element(identifier);
        let (bits, _) = element(rest);
        Key {
            algorithm,
            parameters,
            octets: &bits[1..],
        }
    }

    /// Whether `NativeCheck` takes a signature under this key.
    fn takes(&self, algorithm: &[u8], signed: &[u8], signature: &[u8]) -> bool {
        // SAFETY: the declaration is that of `crates/ts_bench`, where a slice is a pointer and then a length; each two are
        // those of one slice, which is borrowed for the call. The function requires nothing else.
        unsafe {
            ts_bench_check(
                algorithm.as_ptr(),
                algorithm.len(),
                self.algorithm.as_ptr(),
                self.algorithm.len(),
                self.parameters.as_ptr(),
                self.parameters.len(),
                self.octets.as_ptr(),
                self.octets.len(),
                signed.as_ptr(),
                signed.len(),
                signature.as_ptr(),
                signature.len(),
            )
        }
    }
}

/// The time of one check, in microseconds, of some at once.
fn time(mut check: impl FnMut() -> bool) -> f64 {
    let start = Instant::now();
    for _ in 0..CHECKS {
        black_box(check());
    }
    start.elapsed().as_nanos() as f64 / 1000.0 / f64::from(CHECKS)
}

/// The least times of two checks that take turns: what else the machine does can only add to them.
fn least(mut one: impl FnMut() -> bool, mut other: impl FnMut() -> bool) -> (f64, f64) {
    (0..ROUNDS).fold((f64::INFINITY, f64::INFINITY), |(first, second), _| {
        (first.min(time(&mut one)), second.min(time(&mut other)))
    })
}

fn read(folder: &Path, name: &str) -> Result<Vec<u8>, Box<dyn Error>> {
    fs::read(folder.join(name)).map_err(|error| format!("{name}: {error}").into())
}

fn main() -> Result<(), Box<dyn Error>> {
    let folder = PathBuf::from(env::args_os().nth(1).ok_or("usage: signatures FOLDER")?);
    let signed = read(&folder, "message")?;
    println!("algorithm       here   OpenSSL     ratio    (µs a check)");
    for (name, algorithm, hash) in ALGORITHMS {
        let info = read(&folder, &format!("{name}.key"))?;
        let signature = read(&folder, &format!("{name}.signature"))?;
        let key = Key::of(&info);
        let peer = PublicKey::read(&info, hash).ok_or(format!("{name}: OpenSSL reads no key"))?;
        if !key.takes(algorithm, &signed, &signature) || !peer.takes(&signed, &signature) {
            return Err(format!("{name}: the signature is not good").into());
        }
        let (here, there) = least(
            || key.takes(black_box(algorithm), &signed, &signature),
            || peer.takes(black_box(&signed), &signature),
        );
        println!("{name:<10}{here:>10.1}{there:>10.1}{:>10.2}", here / there);
    }
    Ok(())
}
