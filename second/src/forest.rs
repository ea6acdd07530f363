//! The forest that a balanced word encodes, written out: one record for each node.
//! Results are looked up here; D and the index play no part in them, but for kind 13.

/// No node: a root's parent, a leaf's first child, a last child's next sibling.
pub const NONE: u32 = u32::MAX;

/// One node. Other nodes are named here by number, places by where their bit stands.
#[derive(Clone, Debug)]
pub struct Node {
    pub opening: u32,
    pub closing: u32,
    pub depth: u32,
    pub parent: u32,
    pub first_child: u32,
    pub next_sibling: u32,
    pub children: u32,
    /// Nodes in the branch, the node itself included.
    pub branch: u32,
    last_child: u32,
    /// An ancestor some way up (a root's is itself), so that a chain of a million nodes is climbed
    /// in some twenty steps and not in a million.
    jump: u32,
}

pub struct Forest {
    /// By number, which is the order of the openings.
    pub nodes: Vec<Node>,
    /// By place: the number of the node that opens or closes there.
    pub node_at: Vec<u32>,
}

impl Forest {
    /// The forest of the word, or none if a closing has no partner or an opening is left over.
    pub fn grow(bits: &[bool]) -> Option<Forest> {
        let mut forest = Forest {
            nodes: Vec::with_capacity(bits.len() / 2),
            node_at: Vec::with_capacity(bits.len()),
        };
        let mut open: Vec<u32> = Vec::new();
        let mut last_root = NONE;
        for (place, &opens) in bits.iter().enumerate() {
            if opens {
                let parent = open.last().copied().unwrap_or(NONE);
                let number = forest.open(place as u32, parent, &mut last_root);
                open.push(number);
            } else {
                let number = open.pop()?;
                forest.close(place as u32, number);
            }
        }
        open.is_empty().then_some(forest)
    }

    fn open(&mut self, place: u32, parent: u32, last_root: &mut u32) -> u32 {
        let number = self.nodes.len() as u32;
        let left = match parent {
            NONE => std::mem::replace(last_root, number),
            _ => self.adopt(parent, number),
        };
        if left != NONE {
            self.nodes[left as usize].next_sibling = number;
        }
        self.node_at.push(number);
        self.nodes.push(Node {
            opening: place,
            closing: NONE,
            depth: match parent {
                NONE => 0,
                _ => self.at(parent).depth + 1,
            },
            parent,
            first_child: NONE,
            next_sibling: NONE,
            children: 0,
            branch: 1,
            last_child: NONE,
            jump: self.jump_under(parent, number),
        });
        number
    }

    /// Counts a child in at its parent, and gives the child before it.
    fn adopt(&mut self, parent: u32, child: u32) -> u32 {
        let parent = &mut self.nodes[parent as usize];
        parent.children += 1;
        if parent.first_child == NONE {
            parent.first_child = child;
        }
        std::mem::replace(&mut parent.last_child, child)
    }

    fn close(&mut self, place: u32, number: u32) {
        self.node_at.push(number);
        let node = &mut self.nodes[number as usize];
        node.closing = place;
        let (parent, branch) = (node.parent, node.branch);
        if parent != NONE {
            self.nodes[parent as usize].branch += branch;
        }
    }

    /// Two jumps of one length above the parent are made one of double length.
    fn jump_under(&self, parent: u32, number: u32) -> u32 {
        if parent == NONE {
            return number;
        }
        let near = self.at(self.at(parent).jump);
        let far = self.at(near.jump);
        if self.at(parent).depth - near.depth == near.depth - far.depth {
            near.jump
        } else {
            parent
        }
    }

    pub fn at(&self, number: u32) -> &Node {
        &self.nodes[number as usize]
    }

    /// The first of the node and its ancestors, going up, that is far enough: none if none is.
    /// Once far enough, every ancestor above must be so too.
    fn climb_until(&self, mut number: u32, enough: impl Fn(&Node) -> bool) -> Option<u32> {
        while !enough(self.at(number)) {
            let node = self.at(number);
            if node.parent == NONE {
                return None;
            }
            number = if enough(self.at(node.jump)) {
                node.parent
            } else {
                node.jump
            };
        }
        Some(number)
    }

    /// The ancestor so many levels above; the node itself for 0.
    pub fn ancestor(&self, number: u32, levels: u32) -> Option<u32> {
        let depth = self.at(number).depth.checked_sub(levels)?;
        self.climb_until(number, |node| node.depth <= depth)
    }

    /// The deepest node whose branch holds both.
    pub fn common(&self, one: u32, other: u32) -> Option<u32> {
        let (earlier, later) = (one.min(other), one.max(other));
        let place = self.at(later).opening;
        self.climb_until(earlier, |node| node.closing > place)
    }

    /// Whether the second node is in the first one's branch: whether the first is on its chain.
    pub fn holds(&self, branch: u32, number: u32) -> bool {
        let depth = self.at(branch).depth;
        match self.at(number).depth.checked_sub(depth) {
            Some(levels) => self.ancestor(number, levels) == Some(branch),
            None => false,
        }
    }
}

#[cfg(test)]
mod tests {
    use super::*;
    use crate::shapes::every_word;
    use crate::word::from_text;

    #[test]
    fn records_of_the_example() {
        let forest = Forest::grow(&from_text("(()(()()))()")).unwrap();
        let root = forest.at(0);
        assert_eq!((root.closing, root.children, root.branch), (9, 2, 5));
        assert_eq!((root.first_child, root.next_sibling), (1, 5));
        assert_eq!(forest.at(2).parent, 0);
        assert_eq!(forest.at(4).depth, 2);
    }

    /// The jumps must change nothing but the number of steps.
    #[test]
    fn climbing_is_stepping() {
        for bits in every_word(12) {
            let forest = Forest::grow(&bits).unwrap();
            for number in 0..forest.nodes.len() as u32 {
                let mut above = number;
                for levels in 0.. {
                    let step = (above != NONE).then_some(above);
                    assert_eq!(forest.ancestor(number, levels), step);
                    if above == NONE {
                        break;
                    }
                    above = forest.at(above).parent;
                }
            }
        }
    }
}
