//! The longest certificates of shapes that could be hard to read: one list of theirs has as many items as fit, no two
//! of them equal, or the last alone equal to the first.

use crate::certificate::{attribute, authority, certificate, critical, extension, issuer};
use crate::der::{element, nested, set_of, OBJECT_IDENTIFIER, SEQUENCE};
use crate::reader::MAX_CERTIFICATE;

/// One or two octets below 80: the contents of an OBJECT IDENTIFIER, and the text of an IA5String too.
type Word = Vec<u8>;

/// The order in which a certificate's list has the words.
enum Order {
    Ascending,
    Descending,
    /// Neither: each word is a large stride behind the one before it.
    Shuffled,
    /// The same, but the last word is the first one again, which is refused.
    Repeated,
}

/// Coprime to each number of words.
const STRIDE: usize = 7_919;

/// Items in no order: a large stride from one to the next.
pub fn shuffled<T: Clone>(items: &[T]) -> Vec<T> {
    (0..items.len())
        .map(|n| items[n * STRIDE % items.len()].clone())
        .collect()
}

/// A shape: what its list has for items, and how the certificate is made with a list of words.
pub struct Shape {
    pub items: &'static str,
    order: Order,
    make: fn(&[Word]) -> Vec<u8>,
}

/// A certificate as long as its shape lets it be.
pub struct Longest {
    pub octets: Vec<u8>,
    pub count: usize,
}

pub const SHAPES: [Shape; 12] = [
    Shape::new("extensions, ascending", Order::Ascending, extensions),
    Shape::new("extensions, descending", Order::Descending, extensions),
    Shape::new("extensions, shuffled", Order::Shuffled, extensions),
    Shape::new("extensions, last again", Order::Repeated, extensions),
    Shape::new("RDNs of the subject", Order::Ascending, rdns),
    Shape::new("attributes of one RDN", Order::Ascending, attributes),
    Shape::new("policies, ascending", Order::Ascending, policies),
    Shape::new("policies, descending", Order::Descending, policies),
    Shape::new("policies, shuffled", Order::Shuffled, policies),
    Shape::new("policies, last again", Order::Repeated, policies),
    Shape::new("alternative names", Order::Ascending, alternative_names),
    Shape::new("permitted subtrees", Order::Ascending, subtrees),
];

impl Shape {
    const fn new(items: &'static str, order: Order, make: fn(&[Word]) -> Vec<u8>) -> Shape {
        Shape { items, order, make }
    }

    /// The certificate with as many words as fit, the shortest words first of all.
    pub fn longest(&self) -> Longest {
        let words = words();
        let counts: Vec<usize> = (1..=words.len()).collect();
        let fits = |count: &usize| (self.make)(&words[..*count]).len() <= MAX_CERTIFICATE;
        let count = counts.partition_point(fits);
        let mut kept = words[..count].to_vec();
        kept.sort();
        match self.order {
            Order::Ascending => {}
            Order::Descending => kept.reverse(),
            Order::Shuffled => kept = shuffled(&kept),
            Order::Repeated => {
                kept = shuffled(&kept);
                kept[count - 1] = kept[0].clone();
            }
        }
        Longest {
            octets: (self.make)(&kept),
            count,
        }
    }
}

/// All words, the shortest first.
fn words() -> Vec<Word> {
    let short = (0..0x80).map(|a| vec![a]);
    let long = (0..0x80).flat_map(|a| (0..0x80).map(move |b| vec![a, b]));
    short.chain(long).collect()
}

/// Extensions that nobody knows, without content.
fn extensions(words: &[Word]) -> Vec<u8> {
    let extensions: Vec<_> = words.iter().map(|it| extension(it, &[])).collect();
    certificate(&issuer(), &extensions)
}

/// A subject whose relative distinguished names have one attribute each.
fn rdns(words: &[Word]) -> Vec<u8> {
    let rdn = |kind: &Word| set_of(vec![attribute(kind, &[])]);
    let rdns: Vec<_> = words.iter().map(rdn).collect();
    certificate(&nested(SEQUENCE, &rdns), &[authority()])
}

/// A subject of one relative distinguished name.
fn attributes(words: &[Word]) -> Vec<u8> {
    let attributes = words.iter().map(|it| attribute(it, &[])).collect();
    certificate(&nested(SEQUENCE, &[set_of(attributes)]), &[authority()])
}

/// The extension certificatePolicies.
fn policies(words: &[Word]) -> Vec<u8> {
    let policy = |it: &Word| element(SEQUENCE, &element(OBJECT_IDENTIFIER, it));
    let policies: Vec<_> = words.iter().map(policy).collect();
    let value = extension(&[0x55, 0x1D, 0x20], &nested(SEQUENCE, &policies));
    certificate(&issuer(), &[authority(), value])
}

/// The extension subjectAltName, all names of the form dNSName.
fn alternative_names(words: &[Word]) -> Vec<u8> {
    let names: Vec<_> = words.iter().map(|it| element(0x82, it)).collect();
    let value = extension(&[0x55, 0x1D, 0x11], &nested(SEQUENCE, &names));
    certificate(&issuer(), &[authority(), value])
}

/// The extension nameConstraints, which permits names of the form dNSName.
fn subtrees(words: &[Word]) -> Vec<u8> {
    let subtree = |it: &Word| element(SEQUENCE, &element(0x82, it));
    let subtrees: Vec<_> = words.iter().map(subtree).collect();
    let permitted = nested(SEQUENCE, &[nested(0xA0, &subtrees)]);
    certificate(
        &issuer(),
        &[authority(), critical(&[0x55, 0x1D, 0x1E], &permitted)],
    )
}
