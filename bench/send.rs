// The slip of a list of entries, and the answer to a call, in plain Rust.
use crate::slip::{Refusal, MAX_BYTES};
use crate::table::Table;

const MAX_NODES: usize = 1023;

#[derive(Default)]
pub struct Answer {
    pub number: usize,
    pub place: usize,
    pub second: usize,
    pub side: usize,
    pub length: usize,
    pub blocks: usize,
    pub label: [u8; 32],
}

impl Answer {
    pub fn taken(length: usize, blocks: usize, label: [u8; 32]) -> Answer {
        Answer { length, blocks, label, ..Answer::default() }
    }

    pub fn refused(Refusal(number, place): Refusal) -> Answer {
        Answer { number: number as usize, place, ..Answer::default() }
    }
}

// An entry to be written; a leaf's label is its value.
pub enum Item<'a> {
    Internal { children: usize, blocks: usize },
    Leaf { kind: u16, label: &'a [u8] },
}

impl Item<'_> {
    pub fn of(table: &Table, i: usize) -> Item<'_> {
        let row = &table.rows[i];
        match row.children {
            0 => Item::Leaf { kind: row.kind, label: table.label(i) },
            children => Item::Internal { children, blocks: row.blocks },
        }
    }

    fn bits(&self) -> usize {
        match self {
            Item::Internal { .. } => 6,
            Item::Leaf { kind: 0, .. } => 267,
            Item::Leaf { label, .. } => 20 + 8 * label.len(),
        }
    }

    fn blocks(&self) -> usize {
        match self {
            Item::Internal { blocks, .. } => *blocks,
            Item::Leaf { .. } => 0,
        }
    }
}

// Writes the first bits of an output. Those of the byte at hand are held until it is full.
struct Writer<'a> {
    out: &'a mut [u8],
    at: usize,
    held: u8,
}

impl Writer<'_> {
    // At most 16 bits.
    fn put(&mut self, number: usize, count: usize) {
        let used = self.at % 8;
        let mut word = u32::from(self.held) << 16 | (number as u32) << (24 - used - count);
        for _ in 0..(used + count) / 8 {
            self.out[self.at / 8] = (word >> 16) as u8;
            self.at += 8;
            word = word << 8 & 0xff_ffff;
        }
        self.at = self.at / 8 * 8 + (used + count) % 8;
        self.held = (word >> 16) as u8;
    }

    fn bytes(&mut self, data: &[u8]) {
        let (first, shift) = (self.at / 8, self.at % 8);
        self.at += 8 * data.len();
        let out = &mut self.out[first..first + data.len()];
        let [.., last] = data else { return };
        if shift == 0 {
            return out.copy_from_slice(data);
        }
        out[0] = self.held | data[0] >> shift;
        for (o, p) in out[1..].iter_mut().zip(data.windows(2)) {
            *o = p[0] << (8 - shift) | p[1] >> shift;
        }
        self.held = last << (8 - shift);
    }

    fn item(&mut self, item: &Item) {
        match item {
            Item::Internal { children, .. } => self.put(31 + children, 6),
            Item::Leaf { kind, label } => {
                self.put(usize::from(*kind), 11);
                if *kind != 0 {
                    self.put(label.len(), 9);
                }
                self.bytes(label);
            }
        }
    }
}

// Writes the slip of some entries whose root label is told, unless it is over the limits or the output is too short.
pub fn send(items: &[Item], label: [u8; 32], out: &mut [u8]) -> Answer {
    let bits = 16 + items.iter().map(Item::bits).sum::<usize>();
    let length = bits.div_ceil(8);
    if items.len() > MAX_NODES || length > MAX_BYTES {
        return Answer::refused(Refusal(15, 0));
    }
    if out.len() < length {
        return Answer::refused(Refusal(11, 0));
    }
    let mut writer = Writer { out, at: 0, held: 0 };
    writer.put(1 << 10 | items.len(), 16);
    items.iter().for_each(|item| writer.item(item));
    if bits % 8 != 0 {
        writer.out[length - 1] = writer.held;
    }
    Answer::taken(length, items.iter().map(Item::blocks).sum(), label)
}
