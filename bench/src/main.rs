//! Times `Cert::read` beside `webpki::EndEntityCert::try_from`, OpenSSL's `d2i_X509` and a bare walk over the headers: on the
//! roots of Debian's package `ca-certificates`, and on the longest certificates of shapes that could be hard to read.

mod certificate;
mod der;
#[allow(dead_code)]
mod openssl;
mod pem;
mod reader;
mod roots;
mod shapes;
mod timing;

use reader::{OpenSsl, Ours, Reader, Walk, Webpki};
use roots::Root;
use shapes::{Shape, SHAPES};
use std::env;
use std::error::Error;
use std::path::PathBuf;
use timing::{pass, race, ROUNDS};

/// A shape is marked where `Cert::read` takes more than this many times as long for an octet as for one of the roots.
const MARKED: f64 = 20.0;

fn main() -> Result<(), Box<dyn Error>> {
    let folder = env::args_os()
        .nth(1)
        .unwrap_or_else(|| roots::FOLDER.into());
    let roots = roots::load(&PathBuf::from(folder))?;
    if roots.is_empty() {
        return Err("the folder has no roots".into());
    }
    println!("Roots: {}", roots.len());
    tell_refused::<Ours>(&roots);
    tell_refused::<Webpki>(&roots);
    let timed = tell_times(&roots);
    tell_shapes(&timed);
    Ok(())
}

/// Prints how many of the roots a reader reads, and what is wrong with each that it refuses.
fn tell_refused<R: Reader>(roots: &[Root]) {
    let fault = |root| Some((root, R::read(Root::octets(root)).err()?));
    let refused: Vec<_> = roots.iter().filter_map(fault).collect();
    let read = roots.len() - refused.len();
    println!("{}: {read} read, {} refused", R::NAME, refused.len());
    for (root, fault) in refused {
        println!("  {}: {fault}", root.file);
    }
}

/// Prints how long the readers take for the roots that `Cert::read` and webpki read, or for all where there are none, which
/// it answers.
fn tell_times(roots: &[Root]) -> Vec<&[u8]> {
    let all: Vec<&[u8]> = roots.iter().map(Root::octets).collect();
    let both: Vec<&[u8]> = all.iter().copied().filter(|it| is_read(it)).collect();
    let (timed, which) = match both.is_empty() {
        true => (all, "all, as none is read by both"),
        false => (both, "those that both read"),
    };
    let octets = timed.concat().len();
    println!();
    println!(
        "Timed: {which}, {} certificates of {octets} octets; the median of {ROUNDS} rounds",
        timed.len()
    );
    let [ours, webpki, walk] = race([
        (pass::<Ours>, &timed),
        (pass::<Webpki>, &timed),
        (pass::<Walk>, &timed),
    ]);
    // By itself: it leaves nothing of the others in the caches.
    let [openssl] = race([(pass::<OpenSsl>, &timed)]);
    for (name, time) in [
        (Ours::NAME, ours),
        (Webpki::NAME, webpki),
        (Walk::NAME, walk),
        (OpenSsl::NAME, openssl),
    ] {
        let (each, for_an_octet) = (time / timed.len() as f64, time / octets as f64);
        let ratio = time / webpki;
        println!("{name:<12}{each:>10.1} ns a certificate{for_an_octet:>10.3} ns an octet{ratio:>10.2} times webpki");
    }
    timed
}

/// Whether both readers read it.
fn is_read(octets: &[u8]) -> bool {
    Ours::read(octets).is_ok() && Webpki::read(octets).is_ok()
}

/// Prints how long both readers take for the longest certificate of each shape, and how many times as long `Cert::read`
/// takes for an octet of it as for one of the roots, in the same rounds.
fn tell_shapes(roots: &[&[u8]]) {
    println!();
    println!(
        "Longest certificates by {}; 'ratio' is to an octet of the roots in the same rounds",
        Ours::NAME
    );
    println!(
        "{:<24}{:>7}{:>8}{:>10}{:>8}{:>10}{:>10}  answer",
        "items", "count", "octets", "ns/octet", "ratio", "", "webpki"
    );
    for shape in &SHAPES {
        tell_shape(shape, roots);
    }
}

fn tell_shape(shape: &Shape, roots: &[&[u8]]) {
    let longest = shape.longest();
    let octets = longest.octets.len();
    let inputs = [longest.octets.as_slice()];
    let [ours, webpki, of_roots] = race([
        (pass::<Ours>, &inputs),
        (pass::<Webpki>, &inputs),
        (pass::<Ours>, roots),
    ]);
    let (ours, webpki) = (ours / octets as f64, webpki / octets as f64);
    let ratio = ours / (of_roots / roots.concat().len() as f64);
    let mark = if ratio > MARKED { "ABOVE 20" } else { "" };
    let answer = match Ours::read(&longest.octets) {
        Ok(()) => "read".to_owned(),
        Err(fault) => fault.to_string(),
    };
    println!(
        "{:<24}{:>7}{octets:>8}{ours:>10.3}{ratio:>8.2}{mark:>10}{webpki:>10.3}  {answer}",
        shape.items, longest.count
    );
}
