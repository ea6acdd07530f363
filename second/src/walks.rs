//! The five walks over the index, step by step as document 01's section "Walks" tells them.
//! Their reads are reported; that they also find what the forest holds is checked beside them.

use crate::index::{summary, Index, Summary};

/// A walker counts every entry it reads; scanning goes by D and costs nothing.
pub struct Walker<'a> {
    depths: &'a [i32],
    index: &'a Index,
    pub reads: u32,
}

impl<'a> Walker<'a> {
    pub fn new(depths: &'a [i32], index: &'a Index) -> Walker<'a> {
        Walker {
            depths,
            index,
            reads: 0,
        }
    }

    /// The one place where an entry is read, so the one place where reads are counted.
    fn read(&mut self, k: usize) -> Summary {
        self.reads += 1;
        self.index.entries[k]
    }

    fn leaf_of_block(&self, block: usize) -> usize {
        self.index.leaves + block
    }

    fn depth(&self, boundary: usize) -> i64 {
        i64::from(self.depths[boundary])
    }

    /// "The first q > p with D(q) = D(p)+t."
    pub fn forward(&mut self, p: usize, t: i64) -> Option<usize> {
        let leaf = self.leaf_of_block(p / self.index.block_bits);
        let wanted = self.depth(p) + t;
        let (_, end) = self.index.stretch(leaf);
        if let Some(q) = self.scan_up(p + 1, end, wanted) {
            return Some(q);
        }
        let k = self.climb_right(leaf, wanted - self.depth(end))?;
        let (start, end) = self.index.stretch(k);
        self.scan_up(start + 1, end, wanted)
    }

    /// "Climb from that leaf: at an even entry k read k+1 ...; then halve k. At entry 1 there is none."
    fn climb_right(&mut self, mut k: usize, mut t: i64) -> Option<usize> {
        while k != 1 {
            if k % 2 == 0 {
                let right = self.read(k + 1);
                if reaches(right, t) {
                    return Some(self.descend_left_first(k + 1, t));
                }
                t -= i64::from(right.total);
            }
            k /= 2;
        }
        None
    }

    /// "Going down, read the left child; enter it on the same test, else take its total off t and
    /// enter the right one unread."
    fn descend_left_first(&mut self, mut k: usize, mut t: i64) -> usize {
        while k < self.index.leaves {
            let left = self.read(2 * k);
            k *= 2;
            if !reaches(left, t) {
                t -= i64::from(left.total);
                k += 1;
            }
        }
        k
    }

    fn scan_up(&self, first: usize, last: usize, wanted: i64) -> Option<usize> {
        (first..=last).find(|&q| self.depth(q) == wanted)
    }

    /// "The last q < p with D(q) = D(p)+t. For p = 0 there is none."
    pub fn backward(&mut self, p: usize, t: i64) -> Option<usize> {
        if p == 0 {
            return None;
        }
        let leaf = self.leaf_of_block((p - 1) / self.index.block_bits);
        let wanted = self.depth(p) + t;
        let (start, _) = self.index.stretch(leaf);
        if let Some(q) = self.scan_down(start + 1, p - 1, wanted) {
            return Some(q);
        }
        match self.climb_left(leaf, wanted - self.depth(start)) {
            Climb::Entered(k) => {
                let (start, end) = self.index.stretch(k);
                self.scan_down(start + 1, end, wanted)
            }
            Climb::Top(0) => Some(0),
            Climb::Top(_) => None,
        }
    }

    /// "At an odd entry read k-1; enter it if least <= t+total <= greatest, else add its total to t."
    fn climb_left(&mut self, mut k: usize, mut t: i64) -> Climb {
        while k != 1 {
            if k % 2 == 1 {
                let left = self.read(k - 1);
                let from_its_start = t + i64::from(left.total);
                if reaches(left, from_its_start) {
                    return Climb::Entered(self.descend_right_first(k - 1, t));
                }
                t = from_its_start;
            }
            k /= 2;
        }
        Climb::Top(t)
    }

    /// "Going down, read the right child first, by the same rule."
    fn descend_right_first(&mut self, mut k: usize, mut t: i64) -> usize {
        while k < self.index.leaves {
            let right = self.read(2 * k + 1);
            let from_its_start = t + i64::from(right.total);
            k *= 2;
            if reaches(right, from_its_start) {
                k += 1;
            } else {
                t = from_its_start;
            }
        }
        k
    }

    fn scan_down(&self, first: usize, last: usize, wanted: i64) -> Option<usize> {
        (first..=last).rev().find(|&q| self.depth(q) == wanted)
    }

    /// D(p), for p < m: what was climbed past on the left, and the scanned rest of p's own block.
    pub fn prefix(&mut self, p: usize) -> i64 {
        let mut k = self.leaf_of_block(p / self.index.block_bits);
        let (start, _) = self.index.stretch(k);
        let mut depth = self.depth(p) - self.depth(start);
        while k > 1 {
            if k % 2 == 1 {
                depth += i64::from(self.read(k - 1).total);
            }
            k /= 2;
        }
        depth
    }

    /// The opening with number r, for r < n.
    pub fn select(&mut self, mut r: usize) -> Option<usize> {
        let mut k = 1;
        while k < self.index.leaves {
            let (start, end) = self.index.stretch(2 * k);
            let total = i64::from(self.read(2 * k).total);
            let openings = ((end - start) as i64 + total) as usize / 2;
            k *= 2;
            if r >= openings {
                r -= openings;
                k += 1;
            }
        }
        let (start, end) = self.index.stretch(k);
        (start..end)
            .filter(|&place| self.depths[place + 1] > self.depths[place])
            .nth(r)
    }

    /// The summary's least and its count for the bits from a up to b, a < b.
    pub fn range(&mut self, a: usize, b: usize) -> Lowest {
        let block_bits = self.index.block_bits;
        let (first, last) = (a / block_bits, (b - 1) / block_bits);
        if first == last {
            return Lowest::start().past(summary(self.depths, a, b));
        }
        let (mut k, mut r) = (self.leaf_of_block(first), self.leaf_of_block(last));
        let (left_end, right_start) = (self.index.stretch(k).1, self.index.stretch(r).0);
        let mut lowest = Lowest::start().past(summary(self.depths, a, left_end));
        let mut from_the_right = vec![summary(self.depths, right_start, b)];
        while k / 2 != r / 2 {
            if k % 2 == 0 {
                lowest = lowest.past(self.read(k + 1));
            }
            if r % 2 == 1 {
                from_the_right.push(self.read(r - 1));
            }
            (k, r) = (k / 2, r / 2);
        }
        from_the_right.into_iter().rev().fold(lowest, Lowest::past)
    }
}

enum Climb {
    /// The leaf to scan.
    Entered(usize),
    /// The amount still wanted at entry 1.
    Top(i64),
}

/// "If its count isn't 0 and least <= t <= greatest".
fn reaches(entry: Summary, t: i64) -> bool {
    entry.count != 0 && i64::from(entry.least) <= t && t <= i64::from(entry.greatest)
}

/// How far a left-to-right pass over neighbouring stretches has sunk.
#[derive(Clone, Copy)]
pub struct Lowest {
    level: i64,
    pub least: i64,
    pub count: i64,
}

impl Lowest {
    fn start() -> Lowest {
        Lowest {
            level: 0,
            least: i64::MAX,
            count: 0,
        }
    }

    fn past(self, next: Summary) -> Lowest {
        if next.count == 0 {
            return self;
        }
        let reached = self.level + i64::from(next.least);
        let least = self.least.min(reached);
        let keep = if self.least == least { self.count } else { 0 };
        let add = if reached == least { next.count } else { 0 };
        Lowest {
            level: self.level + i64::from(next.total),
            least,
            count: keep + i64::from(add),
        }
    }
}

#[cfg(test)]
mod tests {
    use super::*;
    use crate::shapes::every_word;
    use crate::word::depths;

    /// Every walk on every small word, with blocks so small that the index is high.
    #[test]
    fn walks_find_what_a_plain_search_finds() {
        for block_bits in [1, 2, 4] {
            for bits in every_word(10) {
                let depths = depths(&bits);
                let index = Index::new(&depths, block_bits);
                for p in 0..=bits.len() {
                    for t in -7..=7 {
                        search(&depths, &index, p, t);
                    }
                }
            }
        }
    }

    fn search(depths: &[i32], index: &Index, p: usize, t: i64) {
        let at = |q: usize| i64::from(depths[q]) == i64::from(depths[p]) + t;
        let before = (0..p).rev().find(|&q| at(q));
        assert_eq!(Walker::new(depths, index).backward(p, t), before);
        // No question goes forward from m, or asks its prefix.
        if p + 1 < depths.len() {
            let after = (p + 1..depths.len()).find(|&q| at(q));
            assert_eq!(Walker::new(depths, index).forward(p, t), after);
            let prefix = Walker::new(depths, index).prefix(p);
            assert_eq!(prefix, i64::from(depths[p]));
        }
    }

    #[test]
    fn ranges_and_selects_find_what_a_plain_search_finds() {
        for block_bits in [1, 2, 4] {
            for bits in every_word(10) {
                let depths = depths(&bits);
                let index = Index::new(&depths, block_bits);
                for b in 1..depths.len() {
                    for a in 0..b {
                        let lowest = Walker::new(&depths, &index).range(a, b);
                        let plain = summary(&depths, a, b);
                        assert_eq!(lowest.least, i64::from(plain.least));
                        assert_eq!(lowest.count, i64::from(plain.count));
                    }
                }
                let openings = (0..bits.len()).filter(|&place| bits[place]);
                for (r, place) in openings.enumerate() {
                    let mut walker = Walker::new(&depths, &index);
                    assert_eq!(walker.select(r), Some(place));
                    assert_eq!(walker.reads, index.height());
                }
            }
        }
    }
}
