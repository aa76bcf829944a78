// The check of a slip in plain Rust, for the twins. What else a call needs of the entries it gets by a Keep.
use crate::sha256::Digest;

pub const MAX_BYTES: usize = 32768;
const MAX_HEIGHT: u8 = 16;

// A refusal: its number and place. Not every twin reads the fields of this and of an entry.
#[allow(dead_code)]
pub struct Refusal(pub u32, pub usize);

pub struct Accepted {
    pub blocks: usize,
    pub label: [u8; 32],
}

// An entry as it is checked: its children are none for a leaf, its blocks those of its own label.
#[allow(dead_code)]
pub struct Entry<'a> {
    pub kind: u16,
    pub children: usize,
    pub blocks: usize,
    pub label: &'a [u8],
}

// What a call keeps of each entry; the check alone keeps nothing.
pub trait Keep {
    fn keep(&mut self, entry: Entry);
}

impl Keep for () {
    fn keep(&mut self, _: Entry) {}
}

struct Bits<'a> {
    data: &'a [u8],
    at: usize,
}

impl Bits<'_> {
    fn left(&self) -> usize {
        8 * self.data.len() - self.at
    }

    // The next bits, at most 16 of them.
    fn take(&mut self, count: usize) -> Option<u32> {
        if self.left() < count {
            return None;
        }
        let first = self.at / 8;
        let byte = |i: usize| u32::from(self.data.get(first + i).copied().unwrap_or(0));
        let word = byte(0) << 16 | byte(1) << 8 | byte(2);
        let shift = 24 - self.at % 8 - count;
        self.at += count;
        Some(word >> shift & ((1 << count) - 1))
    }

    // Puts the next bytes behind those of an area.
    fn bytes(&mut self, count: usize, area: &mut Vec<u8>) -> Option<()> {
        if self.left() < 8 * count {
            return None;
        }
        let (first, shift) = (self.at / 8, self.at % 8);
        self.at += 8 * count;
        if shift == 0 {
            area.extend_from_slice(&self.data[first..first + count]);
        } else {
            let pairs = self.data[first..=first + count].windows(2);
            area.extend(pairs.map(|p| p[0] << shift | p[1] >> (8 - shift)));
        }
        Some(())
    }
}

// An entry that waits for its parent: its label starts so far into the area of labels.
struct Waiting {
    kind: u16,
    start: usize,
    height: u8,
}

#[derive(Default)]
pub struct Checker {
    waiting: Vec<Waiting>,
    labels: Vec<u8>,
    blocks: usize,
}

impl Checker {
    pub fn check(&mut self, slip: &[u8], kept: &mut impl Keep) -> Result<Accepted, Refusal> {
        self.waiting.clear();
        self.labels.clear();
        self.blocks = 0;
        if slip.len() > MAX_BYTES {
            return Err(Refusal(1, 0));
        }
        let mut bits = Bits { data: slip, at: 0 };
        let head = bits.take(16).ok_or(Refusal(2, 0))?;
        if head >> 10 != 1 {
            return Err(Refusal(3, 0));
        }
        let nodes = (head & 1023) as usize;
        if nodes == 0 {
            return Err(Refusal(4, 0));
        }
        for place in 0..nodes {
            self.entry(&mut bits, place, kept)?;
        }
        self.finish(bits)
    }

    fn entry(&mut self, bits: &mut Bits, place: usize, kept: &mut impl Keep) -> Result<(), Refusal> {
        if bits.take(1).ok_or(Refusal(2, place))? == 1 {
            let children = bits.take(5).ok_or(Refusal(2, place))? as usize + 1;
            return self.internal(children, place, kept);
        }
        let kind = bits.take(10).ok_or(Refusal(2, place))? as u16;
        let length = match kind {
            0 => 32,
            _ => bits.take(9).ok_or(Refusal(2, place))? as usize,
        };
        let start = self.labels.len();
        bits.bytes(length, &mut self.labels).ok_or(Refusal(2, place))?;
        if (2..=511).contains(&kind) && !is_composed(&self.labels[start..]) {
            return Err(Refusal(8, place));
        }
        kept.keep(Entry { kind, children: 0, blocks: 0, label: &self.labels[start..] });
        self.waiting.push(Waiting { kind, start, height: 1 });
        Ok(())
    }

    fn internal(&mut self, count: usize, place: usize, kept: &mut impl Keep) -> Result<(), Refusal> {
        let Some(first) = self.waiting.len().checked_sub(count) else {
            return Err(Refusal(5, place));
        };
        let children = &self.waiting[first..];
        let height = 1 + children.iter().map(|c| c.height).max().unwrap_or(0);
        if height > MAX_HEIGHT {
            return Err(Refusal(6, place));
        }
        if !self.salt_rule(first) {
            return Err(Refusal(7, place));
        }
        let start = children[0].start;
        let (label, length) = self.digest(first);
        let blocks = (length + 72) / 64;
        self.blocks += blocks;
        kept.keep(Entry { kind: 0, children: count, blocks, label: &label });
        self.waiting.truncate(first);
        self.labels.truncate(start);
        self.labels.extend_from_slice(&label);
        self.waiting.push(Waiting { kind: 0, start, height });
        Ok(())
    }

    fn label(&self, i: usize) -> &[u8] {
        let end = self.waiting.get(i + 1).map_or(self.labels.len(), |w| w.start);
        &self.labels[self.waiting[i].start..end]
    }

    fn salt_rule(&self, first: usize) -> bool {
        let children = &self.waiting[first..];
        let salted = children[0].kind == 1;
        if salted && self.label(first).len() != 32 {
            return false;
        }
        children[1..].iter().all(|c| c.kind != 1 && (salted || c.kind == 0)) && children[0].kind <= 1
    }

    // The label of the children's prelabel, and the prelabel's length.
    fn digest(&self, first: usize) -> ([u8; 32], usize) {
        let mut digest = Digest::new();
        let mut length = 0;
        for i in first..self.waiting.len() {
            let label = self.label(i);
            let [k1, k0] = self.waiting[i].kind.to_be_bytes();
            let [l1, l0] = (label.len() as u16).to_be_bytes();
            digest.absorb(&[k1, k0, l1, l0]);
            digest.absorb(label);
            length += 4 + label.len();
        }
        (digest.finish(), length)
    }

    fn finish(&self, mut bits: Bits) -> Result<Accepted, Refusal> {
        if self.waiting.len() != 1 || self.waiting[0].kind != 0 {
            return Err(Refusal(9, 0));
        }
        let left = bits.left();
        if left > 7 || bits.take(left) != Some(0) {
            return Err(Refusal(10, 0));
        }
        let label = self.labels[..32].try_into().unwrap();
        Ok(Accepted { blocks: self.blocks, label })
    }
}

// Whether a text is well-formed, in the repertoire, and has no mark.
fn is_composed(text: &[u8]) -> bool {
    match std::str::from_utf8(text) {
        Ok(text) => text.chars().all(|c| matches!(c, ' '..='~' | '\u{a0}'..='\u{ff}')),
        Err(_) => false,
    }
}
