// The pruning of a slip in plain Rust.
use crate::send::{send, Answer, Item};
use crate::slip::Refusal;
use crate::table::Table;

#[derive(Default)]
pub struct Pruner {
    table: Table,
}

impl Pruner {
    pub fn prune(&mut self, slip: &[u8], list: &[u16], out: &mut [u8]) -> Answer {
        let root = match self.table.hold(slip) {
            Ok(root) => root,
            Err(refusal) => return Answer::refused(refusal),
        };
        match self.fault(list) {
            Some(at) => Answer::refused(Refusal(12, at)),
            None => send(&self.left(list), root.label, out),
        }
    }

    // The first name that does not rise or names no internal node.
    fn fault(&self, list: &[u16]) -> Option<usize> {
        (0..list.len()).find(|&k| {
            let node = self.table.rows.get(usize::from(list[k]));
            k > 0 && list[k] <= list[k - 1] || node.map_or(true, |row| row.children == 0)
        })
    }

    // The entries that are left. From the last to the first, a named node comes before what is below it.
    fn left(&self, list: &[u16]) -> Vec<Item<'_>> {
        let mut items = Vec::with_capacity(self.table.rows.len());
        let mut names = list.iter().map(|&n| usize::from(n)).rev().peekable();
        let mut end = self.table.rows.len();
        while end > 0 {
            let own = end - 1;
            while names.next_if(|&n| n > own).is_some() {}
            if names.peek() == Some(&own) {
                items.push(Item::Leaf { kind: 0, label: self.table.label(own) });
                end = self.table.rows[own].first;
            } else {
                items.push(Item::of(&self.table, own));
                end = own;
            }
        }
        items.reverse();
        items
    }
}
