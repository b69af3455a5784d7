//! Opening, set-up and refusals that the source does not know: any numbers in a header, right and wrong checksums and
//! selectors. The source says which media are damaged; the model, written from document 01, what else is no log.

use crate::pair::{in_one_word, Pair};
use model::cases::background;
use model::format::{header, header_at, selector, HEADER_LENGTH, SELECTOR_AT};
use model::log::{open, Refusal};
use model::subject::{Call, Subject};

const NUMBERS: [u64; 12] = [0, 1, 2, 3, 4, 5, 9, 1 << 32, 1 << 63, u64::MAX - 72, u64::MAX - 1, u64::MAX];

impl<S: Subject> Pair<'_, S> {
    /// Set-up on every length up to this. Answers how many lengths.
    pub fn set_ups(&mut self, longest: usize) -> Result<u64, String> {
        for length in 0..=longest {
            let medium: Vec<u8> = (0..length).map(|i| (7 * i + 3) as u8).collect();
            self.set_up(medium).map_err(|what| format!("a medium of {} bytes: {}", length, what))?;
        }
        Ok(longest as u64 + 1)
    }

    /// Opening of media with any live header. Answers how many.
    pub fn openings(&mut self) -> Result<u64, String> {
        let mut media = 0;
        for ring in 1..=4 {
            for (head, tail, size) in triples() {
                for second in [false, true] {
                    let variants = variants(ring, head, tail, size, second);
                    variants.iter().for_each(|medium| self.subject.announce(medium, None, Call::Open));
                    for medium in variants {
                        media += 1;
                        self.same_opening(&medium).map_err(|what| {
                            format!("ring {}, second {}, numbers {:?}: {}", ring, second, (head, tail, size), what)
                        })?;
                    }
                }
            }
        }
        Ok(media)
    }

    /// The subject answers as the model does, and both as the source where it answers at all.
    fn same_opening(&mut self, medium: &[u8]) -> Result<(), String> {
        let expected = open(medium).map(|log| (log.head, log.tail, log.size));
        let oracle = self.oracle.open(medium).map(|log| (log.head, log.tail, log.log_size));
        let subject = match self.subject.open(medium) {
            Ok(handle) => self.subject.ask(medium, &handle).map(|log| (log.head, log.tail, log.capacity + 1)),
            Err(refusal) => Err(refusal),
        };
        let source_agrees = match expected {
            Ok(_) => oracle == expected,
            Err(refusal) if in_one_word(refusal) == Refusal::Damaged => oracle == Err(Refusal::Damaged),
            // Upstream takes for a log what has a right checksum.
            Err(_) => oracle.is_ok(),
        };
        if subject == expected && source_agrees {
            Ok(())
        } else {
            Err(format!("the model {:?}, the oracle {:?}, the subject {:?}", expected, oracle, subject))
        }
    }
}

fn triples() -> impl Iterator<Item = (u64, u64, u64)> {
    let pairs = NUMBERS.iter().flat_map(|head| NUMBERS.iter().map(move |tail| (*head, *tail)));
    pairs.flat_map(|(head, tail)| NUMBERS.iter().map(move |size| (head, tail, *size)))
}

/// A medium whose live header has these numbers and a right checksum; then with one bit of each byte of that header
/// flipped, then with one of the selector, and with the other selector.
fn variants(ring: u64, head: u64, tail: u64, size: u64, second: bool) -> Vec<Vec<u8>> {
    let at = header_at(second);
    let mut good = background(ring);
    good[SELECTOR_AT..8].copy_from_slice(&selector(second).to_le_bytes());
    good[at..at + HEADER_LENGTH].copy_from_slice(&header(head, tail, size));
    let flipped = |byte: usize| {
        let mut medium = good.clone();
        medium[byte] ^= 1 << (byte % 8);
        medium
    };
    let mut media: Vec<Vec<u8>> = (at..at + HEADER_LENGTH).chain([SELECTOR_AT, 7]).map(flipped).collect();
    let mut switched = good.clone();
    switched[SELECTOR_AT..8].copy_from_slice(&selector(!second).to_le_bytes());
    media.extend([good, switched]);
    media
}
