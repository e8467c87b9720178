//! verdicts ROOT.der CA.der LEAF.der MOMENT COUNT: times webpki's verdict on a chain of three, an RSA key over a P-256 key, and the checks of its
//! signatures alone. Prints the microseconds of a verdict with the reading of the certificates, and of the two signatures under it.
//!
//! This version of webpki finds no path under a CA that constrains hosts alone, since the subject, a directory name, is then in no permitted subtree.
//! So the CA has to be one without constraints.

use std::time::Instant;
use webpki::{
    EndEntityCert, SignatureAlgorithm, Time, TlsServerTrustAnchors, TrustAnchor, ECDSA_P256_SHA256,
    RSA_PKCS1_2048_8192_SHA256,
};

static ALGORITHMS: [&SignatureAlgorithm; 2] = [&RSA_PKCS1_2048_8192_SHA256, &ECDSA_P256_SHA256];

/// The first element, and what follows its header, and what follows the element.
fn split(octets: &[u8]) -> (&[u8], &[u8], &[u8]) {
    let long = usize::from(octets[1]) & 0x7f;
    let (head, length) = if octets[1] < 0x80 {
        (2, long)
    } else {
        (2 + long, octets[2..2 + long].iter().fold(0, |all, one| all << 8 | usize::from(*one)))
    };
    (&octets[..head + length], &octets[head..head + length], &octets[head + length..])
}

/// What a certificate's issuer signed, and the signature.
fn signed(cert: &[u8]) -> (&[u8], &[u8]) {
    let (tbs, _, rest) = split(split(cert).1);
    let signature = split(split(rest).2).1;
    (tbs, &signature[1..])
}

fn main() {
    let words: Vec<String> = std::env::args().collect();
    let load = |at: usize| std::fs::read(&words[at]).expect("a file");
    let (root, ca, leaf) = (load(1), load(2), load(3));
    let moment = Time::from_seconds_since_unix_epoch(words[4].parse().expect("a moment"));
    let rounds: u32 = words[5].parse().expect("a count");
    let micros = |begun: Instant| begun.elapsed().as_secs_f64() * 1e6 / f64::from(rounds);

    let begun = Instant::now();
    for _ in 0..rounds {
        let anchors = [TrustAnchor::try_from_cert_der(&root).expect("a root")];
        EndEntityCert::try_from(leaf.as_slice())
            .and_then(|cert| cert.verify_is_valid_tls_server_cert(&ALGORITHMS, &TlsServerTrustAnchors(&anchors), &[&ca], moment))
            .expect("a valid chain");
    }
    let verdicts = micros(begun);

    let (by_root, by_ca) = (signed(&ca), signed(&leaf));
    let begun = Instant::now();
    for _ in 0..rounds {
        let check = |issuer: &[u8], with, (tbs, signature): (&[u8], &[u8])| {
            EndEntityCert::try_from(issuer)
                .and_then(|cert| cert.verify_signature(with, tbs, signature))
                .expect("a signature")
        };
        check(&root, ALGORITHMS[0], by_root);
        check(&ca, ALGORITHMS[1], by_ca);
    }
    println!("webpki: a verdict {verdicts:.1} us, of these the two signatures {:.1}", micros(begun));
}
