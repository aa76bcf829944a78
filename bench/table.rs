// A checked slip as a table, in plain Rust.
use crate::slip::{Accepted, Checker, Entry, Keep, Refusal};

// An entry. Its label starts so far into the values; its subtree begins with the entry `first`.
pub struct Row {
    pub kind: u16,
    pub children: usize,
    pub blocks: usize,
    pub first: usize,
    start: usize,
}

#[derive(Default)]
pub struct Table {
    pub rows: Vec<Row>,
    values: Vec<u8>,
    checker: Checker,
}

struct Keeper<'a> {
    rows: &'a mut Vec<Row>,
    values: &'a mut Vec<u8>,
}

impl Keep for Keeper<'_> {
    fn keep(&mut self, e: Entry) {
        let own = self.rows.len();
        let first = (0..e.children).fold(own, |end, _| self.rows[end - 1].first);
        let start = self.values.len();
        self.values.extend_from_slice(e.label);
        let (kind, children, blocks) = (e.kind, e.children, e.blocks);
        self.rows.push(Row { kind, children, blocks, first, start });
    }
}

impl Table {
    // Checks a slip and holds its entries.
    pub fn hold(&mut self, slip: &[u8]) -> Result<Accepted, Refusal> {
        self.rows.clear();
        self.values.clear();
        let mut keeper = Keeper { rows: &mut self.rows, values: &mut self.values };
        self.checker.check(slip, &mut keeper)
    }

    pub fn label(&self, i: usize) -> &[u8] {
        let end = self.rows.get(i + 1).map_or(self.values.len(), |r| r.start);
        &self.values[self.rows[i].start..end]
    }

    // The entries that are a node's children, in order.
    pub fn children(&self, i: usize) -> Vec<usize> {
        let mut entries = Vec::with_capacity(self.rows[i].children);
        let mut end = i;
        for _ in 0..self.rows[i].children {
            entries.push(end - 1);
            end = self.rows[end - 1].first;
        }
        entries.reverse();
        entries
    }
}
