// The join of two slips in plain Rust.
use crate::send::{send, Answer, Item};
use crate::slip::Refusal;
use crate::table::Table;

#[derive(Default)]
pub struct Joiner {
    first: Table,
    second: Table,
}

// Two entry numbers whose nodes have one label and different prelabels.
struct Clash(usize, usize);

impl Joiner {
    pub fn join(&mut self, s: &[u8], u: &[u8], out: &mut [u8]) -> Answer {
        let first = match self.first.hold(s) {
            Ok(root) => root,
            Err(refusal) => return Answer { side: 1, ..Answer::refused(refusal) },
        };
        let second = match self.second.hold(u) {
            Ok(root) => root,
            Err(refusal) => return Answer { side: 2, ..Answer::refused(refusal) },
        };
        if first.label != second.label {
            return Answer::refused(Refusal(13, 0));
        }
        let (i, j) = (self.first.rows.len() - 1, self.second.rows.len() - 1);
        let mut items = Vec::with_capacity(i + 1);
        match self.joined(i, j, &mut items) {
            Ok(()) => send(&items, first.label, out),
            Err(Clash(i, j)) => Answer { second: j, ..Answer::refused(Refusal(14, i)) },
        }
    }

    // Adds the join of two nodes at one shared place.
    fn joined<'a>(&'a self, i: usize, j: usize, items: &mut Vec<Item<'a>>) -> Result<(), Clash> {
        let (a, b) = (&self.first.rows[i], &self.second.rows[j]);
        if b.children == 0 {
            items.extend((a.first..=i).map(|k| Item::of(&self.first, k)));
            return Ok(());
        }
        if a.children == 0 {
            items.extend((b.first..=j).map(|k| Item::of(&self.second, k)));
            return Ok(());
        }
        let (mine, other) = (self.first.children(i), self.second.children(j));
        if !self.alike(&mine, &other) {
            return Err(Clash(i, j));
        }
        for (&k, &l) in mine.iter().zip(&other) {
            self.joined(k, l, items)?;
        }
        items.push(Item::of(&self.first, i));
        Ok(())
    }

    // Whether two runs of children have one prelabel.
    fn alike(&self, mine: &[usize], other: &[usize]) -> bool {
        let same = |(&k, &l): (&usize, &usize)| {
            self.first.rows[k].kind == self.second.rows[l].kind
                && self.first.label(k) == self.second.label(l)
        };
        mine.len() == other.len() && mine.iter().zip(other).all(same)
    }
}
