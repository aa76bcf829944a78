// A plain Rust composer, for comparison: the program `compose` over the same table, with nothing proved.
use std::io::{self, BufRead, Write};

const PAIRS: [(u32, u32, u32); 53] = [
    (65, 768, 192),
    (69, 768, 200),
    (73, 768, 204),
    (79, 768, 210),
    (85, 768, 217),
    (97, 768, 224),
    (101, 768, 232),
    (105, 768, 236),
    (111, 768, 242),
    (117, 768, 249),
    (65, 769, 193),
    (69, 769, 201),
    (73, 769, 205),
    (79, 769, 211),
    (85, 769, 218),
    (89, 769, 221),
    (97, 769, 225),
    (101, 769, 233),
    (105, 769, 237),
    (111, 769, 243),
    (117, 769, 250),
    (121, 769, 253),
    (65, 770, 194),
    (69, 770, 202),
    (73, 770, 206),
    (79, 770, 212),
    (85, 770, 219),
    (97, 770, 226),
    (101, 770, 234),
    (105, 770, 238),
    (111, 770, 244),
    (117, 770, 251),
    (65, 771, 195),
    (78, 771, 209),
    (79, 771, 213),
    (97, 771, 227),
    (110, 771, 241),
    (111, 771, 245),
    (65, 776, 196),
    (69, 776, 203),
    (73, 776, 207),
    (79, 776, 214),
    (85, 776, 220),
    (97, 776, 228),
    (101, 776, 235),
    (105, 776, 239),
    (111, 776, 246),
    (117, 776, 252),
    (121, 776, 255),
    (65, 778, 197),
    (97, 778, 229),
    (67, 807, 199),
    (99, 807, 231),
];

struct Composed {
    number: u32,
    place: usize,
    length: usize,
}

fn refused(number: u32, place: usize) -> Composed {
    Composed { number, place, length: 0 }
}

// The character at `at` and its width, or None where no sequence of Unicode's table 3-7 starts there.
fn first(s: &[u8], at: usize) -> Option<(u32, usize)> {
    let tail = |i: usize| s.get(at + i).filter(|b| (0x80..=0xBF).contains(*b)).map(|b| (*b - 0x80) as u32);
    let a = s[at];
    match a {
        0..=0x7F => Some((a as u32, 1)),
        0xC2..=0xDF => Some(((a - 0xC0) as u32 * 64 + tail(1)?, 2)),
        0xE0..=0xEF => {
            let c = (a - 0xE0) as u32 * 4096 + tail(1)? * 64 + tail(2)?;
            if c < 0x800 || (0xD800..=0xDFFF).contains(&c) { None } else { Some((c, 3)) }
        }
        0xF0..=0xF4 => {
            let c = (a - 0xF0) as u32 * 262144 + tail(1)? * 4096 + tail(2)? * 64 + tail(3)?;
            if c < 0x10000 || 0x10FFFF < c { None } else { Some((c, 4)) }
        }
        _ => None,
    }
}

fn is_plain(c: u32) -> bool {
    (0x20..=0x7E).contains(&c) || (0xA0..=0xFF).contains(&c)
}

fn is_mark(c: u32) -> bool {
    matches!(c, 0x300 | 0x301 | 0x302 | 0x303 | 0x308 | 0x30A | 0x327)
}

fn joined(letter: u32, mark: u32) -> Option<u32> {
    PAIRS.iter().find(|p| p.0 == letter && p.1 == mark).map(|p| p.2)
}

fn put(text: &mut [u8; 511], n: usize, c: u32) -> usize {
    if c < 0x80 {
        text[n] = c as u8;
        return n + 1;
    }
    text[n] = 0xC0 | (c >> 6) as u8;
    text[n + 1] = 0x80 | (c & 63) as u8;
    n + 2
}

fn compose(title: &[u8], out: &mut [u8]) -> Composed {
    if title.len() > 511 {
        return refused(17, 0);
    }
    let mut text = [0u8; 511];
    let (mut at, mut n) = (0, 0);
    while at < title.len() {
        let Some((c, width)) = first(title, at) else {
            return refused(18, at);
        };
        if !is_plain(c) {
            return refused(if is_mark(c) { 20 } else { 19 }, at);
        }
        at += width;
        let mut letter = c;
        if at < title.len() && title[at] == 0xCC {
            if let Some(whole) = first(title, at).and_then(|(mark, _)| joined(c, mark)) {
                letter = whole;
                at += 2;
            }
        }
        n = put(&mut text, n, letter);
    }
    if out.len() < n {
        return refused(11, 0);
    }
    out[..n].copy_from_slice(&text[..n]);
    Composed { number: 0, place: 0, length: n }
}

fn main() -> io::Result<()> {
    let mut input = io::BufReader::with_capacity(65536, io::stdin().lock());
    let mut output = io::BufWriter::with_capacity(65536, io::stdout().lock());
    let mut line = Vec::new();
    let mut out = [0u8; 511];
    while input.read_until(b'\n', &mut line)? > 0 {
        if line.last() == Some(&b'\n') {
            line.pop();
        }
        let r = compose(&line, &mut out);
        if r.number == 0 {
            output.write_all(b"composed ")?;
            output.write_all(&out[..r.length])?;
            output.write_all(b"\n")?;
        } else {
            writeln!(output, "refused {} {}", r.number, r.place)?;
        }
        line.clear();
    }
    Ok(())
}
