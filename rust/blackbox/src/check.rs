//! What is wrong with an image, and where.

use std::fmt::Write;

use blackboxlog::{Error, Reader};

use crate::format::{header_at, Front, Header, RING, SELECTOR_OF_FIRST, SELECTOR_OF_SECOND};

/// What stands on a medium, line by line, and whether it is a log.
pub fn report(medium: &[u8]) -> (String, bool) {
    let mut text = String::new();
    let opened = Reader::open(medium).and_then(|log| log.ask());
    if let Some(front) = Front::of(medium) {
        let ring = medium.len() as u64 - RING;
        line(&mut text, format!("length: {} bytes, a ring of {}", medium.len(), ring));
        line(&mut text, format!("selector at 0: {:016x}, {}", front.selector, selector(&front)));
        for (which, header) in front.headers() {
            let live = match front.live() {
                Some(live) if live == which => ", live",
                Some(_) => ", not live",
                None => "",
            };
            line(&mut text, format!("{} header at {}{}: {}", which, header_at(which), live, judged(header, ring)));
        }
        if opened.is_err() {
            advice(&mut text, &front, ring);
        }
    } else {
        line(&mut text, format!("length: {} bytes", medium.len()));
    }
    line(
        &mut text,
        match opened {
            Ok(log) => format!(
                "a log: head {}, tail {}, capacity {}; it keeps {} bytes",
                log.head,
                log.tail,
                log.capacity,
                log.kept()
            ),
            Err(error) => verdict(error),
        },
    );
    (text, opened.is_ok())
}

fn line(text: &mut String, words: String) {
    let _ = writeln!(text, "{}", words);
}

fn selector(front: &Front) -> String {
    match front.live() {
        Some(which) => format!("the {} header is live", which),
        None => format!(
            "neither of its two values: {} bits from the first's, {} from the second's",
            (front.selector ^ SELECTOR_OF_FIRST).count_ones(),
            (front.selector ^ SELECTOR_OF_SECOND).count_ones()
        ),
    }
}

fn judged(header: &Header, ring: u64) -> String {
    if header.is_right() {
        let fault = header.fault(ring).map(|fault| format!("; no log: {}", fault)).unwrap_or_default();
        format!("checksum {:016x} is right; {}{}", header.stored, header, fault)
    } else {
        format!("checksum is wrong: stored {:016x}, computed {:016x}; {}", header.stored, header.computed, header)
    }
}

/// Which headers would be a log if the selector named them.
fn advice(text: &mut String, front: &Front, ring: u64) {
    for (which, header) in front.headers() {
        if header.is_right() && header.fault(ring).is_none() && front.live() != Some(which) {
            line(text, format!("the {} header would be a log if the selector named it", which));
        }
    }
}

fn verdict(error: Error) -> String {
    if error.is_damage() || error.is_not_a_log() {
        error.to_string()
    } else {
        format!("not a log: {}", error)
    }
}
