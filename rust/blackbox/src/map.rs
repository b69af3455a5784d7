//! A picture of a medium: selector, headers, and the ring with head, tail and wrap; as text and as SVG.

use std::f64::consts::TAU;
use std::fmt::Write;

use blackboxlog::{Error, Numbers, Reader, Which};

use crate::format::{header_at, Front, Header, RING};

pub struct Map {
    name: String,
    length: u64,
    front: Front,
    log: Result<Numbers, Error>,
}

/// The kept bytes: where they begin and end in the ring, and whether they pass its end.
struct Kept {
    from: u64,
    to: u64,
    wraps: bool,
}

impl Map {
    /// Refused if the medium is too short to have a ring.
    pub fn of(name: &str, medium: &[u8]) -> Result<Map, Error> {
        let log = Reader::open(medium).and_then(|log| log.ask());
        match (Front::of(medium), log) {
            (Some(front), log) => Ok(Map { name: name.to_string(), length: medium.len() as u64, front, log }),
            (None, Err(error)) => Err(error),
            (None, Ok(_)) => Err(Error::TooShort { required: RING + 1 }),
        }
    }

    fn ring(&self) -> u64 {
        self.length - RING
    }

    fn kept(&self) -> Option<(Numbers, Kept)> {
        let log = self.log.ok()?;
        let (from, to) = (log.head % self.ring(), log.tail % self.ring());
        Some((log, Kept { from, to, wraps: log.kept() > 0 && to <= from }))
    }

    fn selector_words(&self) -> String {
        match self.front.live() {
            Some(which) => format!("the {} header is live", which),
            None => "damaged: neither value".to_string(),
        }
    }

    fn state_of(&self, which: Which, header: &Header) -> &'static str {
        match (header.is_right(), self.front.live() == Some(which)) {
            (true, true) => "live",
            (true, false) => "not live",
            (false, true) => "live, damaged",
            (false, false) => "not live, wrong checksum",
        }
    }

    fn ring_words(&self) -> String {
        match self.kept() {
            Some((log, kept)) => format!(
                "{} bytes, {} kept{}, room for {}",
                self.ring(),
                log.kept(),
                if kept.wraps { " in two pieces" } else { "" },
                (log.capacity - log.kept()).min(u64::MAX - log.tail)
            ),
            None => format!("{} bytes; nothing is known of them", self.ring()),
        }
    }

    // ---- text

    pub fn text(&self) -> String {
        let mut text = String::new();
        let mut line = |words: String| {
            let _ = writeln!(text, "{}", words.trim_end());
        };
        line(format!("{}: {} bytes", self.name, self.length));
        line(format!("{:>8}  selector       {:016x}, {}", 0, self.front.selector, self.selector_words()));
        for (which, header) in self.front.headers() {
            let title = format!("{} header", which);
            line(format!("{:>8}  {:<14} {}, {}", header_at(which), title, header, self.state_of(which, header)));
        }
        line(format!("{:>8}  ring           {}", RING, self.ring_words()));
        let columns = self.ring().min(64);
        line(format!("          [{}]", self.cells(columns)));
        if let Some((log, kept)) = self.kept() {
            line(format!("           {}", self.marks(columns, &kept)));
            line(format!(
                "          head {} is at {}, tail {} at {}",
                log.head,
                RING + kept.from,
                log.tail,
                RING + kept.to
            ));
        }
        if let Err(error) = self.log {
            line(error.to_string());
        }
        text
    }

    /// A character for each part of the ring: all of it is kept, some of it, none.
    fn cells(&self, columns: u64) -> String {
        (0..columns)
            .map(|column| self.cell(self.start_of(column, columns), self.start_of(column + 1, columns)))
            .collect()
    }

    fn start_of(&self, column: u64, columns: u64) -> u64 {
        (u128::from(column) * u128::from(self.ring()) / u128::from(columns)) as u64
    }

    fn cell(&self, from: u64, to: u64) -> char {
        let kept = match self.kept() {
            None => return '?',
            Some((log, _)) if log.kept() == 0 => return '.',
            Some((_, kept)) => kept,
        };
        let common = |a: u64, b: u64| b.min(to).saturating_sub(a.max(from));
        let filled =
            if kept.wraps { common(kept.from, self.ring()) + common(0, kept.to) } else { common(kept.from, kept.to) };
        match filled {
            0 => '.',
            n if n == to - from => '#',
            _ => '+',
        }
    }

    fn marks(&self, columns: u64, kept: &Kept) -> String {
        (0..columns)
            .map(|column| {
                let within =
                    |place: u64| self.start_of(column, columns) <= place && place < self.start_of(column + 1, columns);
                match (within(kept.from), within(kept.to)) {
                    (true, true) => 'B',
                    (true, false) => 'H',
                    (false, true) => 'T',
                    _ => ' ',
                }
            })
            .collect::<String>()
            + "  H head, T tail, B both"
    }

    // ---- SVG

    pub fn svg(&self) -> String {
        let mut svg = String::new();
        let mut put = |words: String| {
            let _ = writeln!(svg, "{}", words);
        };
        put(String::from(
            "<svg xmlns=\"http://www.w3.org/2000/svg\" width=\"1140\" height=\"480\" viewBox=\"0 0 1140 480\" \
             font-family=\"sans-serif\" font-size=\"14\">",
        ));
        put(format!("<title>{}</title>", escaped(&self.name)));
        put("<rect width=\"1140\" height=\"480\" fill=\"#ffffff\"/>".to_string());
        put(words(30, 36, 18, "#000000", &format!("{}: {} bytes", self.name, self.length)));
        let selector = ["selector at 0".to_string(), format!("{:016x}", self.front.selector), self.selector_words()];
        put(boxed(70, true, self.front.live().is_some(), &selector));
        for (which, header) in self.front.headers() {
            let top = if which == Which::First { 180 } else { 290 };
            let live = self.front.live() == Some(which);
            let title = format!("{} header at {}", which, header_at(which));
            let lines = [title, header.to_string(), self.state_of(which, header).to_string()];
            put(boxed(top, live, header.is_right(), &lines));
            if live {
                put(arrow_to(top));
            }
        }
        put(self.ring_picture());
        put("</svg>".to_string());
        svg
    }

    /// The ring, clockwise from the top, where it starts and ends; the kept bytes are the filled part.
    fn ring_picture(&self) -> String {
        let mut picture = String::from(
            "<circle cx=\"760\" cy=\"250\" r=\"130\" fill=\"none\" stroke=\"#dddddd\" stroke-width=\"36\"/>\n",
        );
        let turn = |place: u64| place as f64 / self.ring() as f64 * TAU;
        if let Some((log, kept)) = self.kept() {
            if log.kept() > 0 {
                let (from, mut to) = (turn(kept.from), turn(kept.to));
                if kept.wraps {
                    to += TAU;
                }
                picture += &arc(from, to);
            }
            let (from, to) = (turn(kept.from), turn(kept.to));
            if log.kept() == 0 {
                picture += &mark(from, "head and tail", log.head, kept.from, 0.0);
            } else {
                // names that would stand over each other are moved apart
                let near = if (from - to).cos() > 0.95 { 16.0 } else { 0.0 };
                picture += &mark(from, "head", log.head, kept.from, -near);
                picture += &mark(to, "tail", log.tail, kept.to, near);
            }
        }
        picture += "<line x1=\"760\" y1=\"98\" x2=\"760\" y2=\"142\" stroke=\"#000000\" stroke-width=\"2\"/>\n";
        picture += &centred(760, 170, 12, "the ring starts at 72");
        picture += &centred(760, 248, 14, &format!("{} bytes", self.ring()));
        picture += &match self.kept() {
            Some((log, kept)) => {
                let wraps = if kept.wraps { centred(760, 288, 12, "in two pieces") } else { String::new() };
                centred(760, 268, 14, &format!("{} kept", log.kept())) + &wraps
            }
            None => centred(760, 268, 14, "nothing is known of them"),
        };
        if let Err(error) = self.log {
            picture += &words(30, 410, 13, "#c02020", &error.to_string());
        }
        picture
    }
}

fn words(x: u32, y: u32, size: u32, colour: &str, what: &str) -> String {
    format!("<text x=\"{}\" y=\"{}\" font-size=\"{}\" fill=\"{}\">{}</text>", x, y, size, colour, escaped(what))
}

fn centred(x: u32, y: u32, size: u32, what: &str) -> String {
    format!("<text x=\"{}\" y=\"{}\" font-size=\"{}\" text-anchor=\"middle\">{}</text>\n", x, y, size, escaped(what))
}

/// Three lines in a box, whose colour says whether it counts and whether it is right.
fn boxed(top: u32, live: bool, right: bool, lines: &[String; 3]) -> String {
    let (edge, fill) = match (live, right) {
        (true, true) => ("#1060c0", "#eef4fc"),
        (true, false) => ("#c02020", "#eef4fc"),
        (false, _) => ("#808080", "#f6f6f6"),
    };
    format!(
        "<rect x=\"30\" y=\"{}\" width=\"380\" height=\"80\" rx=\"6\" fill=\"{}\" stroke=\"{}\" stroke-width=\"2\"/>\n{}\n{}\n{}",
        top,
        fill,
        edge,
        words(44, top + 24, 14, "#000000", &lines[0]),
        words(44, top + 46, 13, "#333333", &lines[1]),
        words(44, top + 68, 13, edge, &lines[2]),
    )
}

/// From the selector's box to the box of the live header.
fn arrow_to(top: u32) -> String {
    format!(
        "<path d=\"M 410 110 H 440 V {} H 416\" fill=\"none\" stroke=\"#1060c0\" stroke-width=\"2\"/>\n\
         <path d=\"M 410 {} l 10 -5 v 10 z\" fill=\"#1060c0\"/>",
        top + 40,
        top + 40
    )
}

fn point(turn: f64, radius: f64) -> (f64, f64) {
    (760.0 + radius * turn.sin(), 250.0 - radius * turn.cos())
}

fn arc(from: f64, to: f64) -> String {
    let ((x1, y1), (x2, y2)) = (point(from, 130.0), point(to, 130.0));
    let large = if to - from > TAU / 2.0 { 1 } else { 0 };
    // an arc that ends where it begins is not drawn: it is drawn in two halves
    let (xm, ym) = point((from + to) / 2.0, 130.0);
    let path = if to - from > TAU * 0.999 {
        format!("M {:.2} {:.2} A 130 130 0 0 1 {:.2} {:.2} A 130 130 0 0 1 {:.2} {:.2}", x1, y1, xm, ym, x2, y2)
    } else {
        format!("M {:.2} {:.2} A 130 130 0 {} 1 {:.2} {:.2}", x1, y1, large, x2, y2)
    };
    format!("<path d=\"{}\" fill=\"none\" stroke=\"#1060c0\" stroke-width=\"36\"/>\n", path)
}

fn mark(turn: f64, what: &str, position: u64, place: u64, down: f64) -> String {
    let ((x1, y1), (x2, y2), (x, y)) = (point(turn, 108.0), point(turn, 160.0), point(turn, 170.0));
    let anchor = if turn.sin() < -0.01 { "end" } else { "start" };
    format!(
        "<line x1=\"{:.2}\" y1=\"{:.2}\" x2=\"{:.2}\" y2=\"{:.2}\" stroke=\"#000000\" stroke-width=\"2\"/>\n\
         <text font-size=\"12\" text-anchor=\"{}\"><tspan x=\"{:.2}\" y=\"{:.2}\">{} {}</tspan>\
         <tspan x=\"{:.2}\" dy=\"14\">at {}</tspan></text>\n",
        x1,
        y1,
        x2,
        y2,
        anchor,
        x,
        y + down,
        what,
        position,
        x,
        RING + place
    )
}

/// Text in XML: without what has a meaning there, and without characters that it does not allow.
fn escaped(text: &str) -> String {
    text.chars()
        .map(|character| match character {
            '&' => "&amp;".to_string(),
            '<' => "&lt;".to_string(),
            '>' => "&gt;".to_string(),
            '"' => "&quot;".to_string(),
            c if c < ' ' || ('\u{7f}'..='\u{9f}').contains(&c) || c == '\u{fffe}' || c == '\u{ffff}' => {
                "\u{fffd}".to_string()
            }
            c => c.to_string(),
        })
        .collect()
}
