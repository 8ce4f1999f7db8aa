//! Ordered copies of tables that mean the same and are not reduced, and damage done to tables.
use crate::convert::as_made;
use crate::corpus::MOST_NODES;
use crate::random::Random;
use biodivine_lib_bdd::Bdd;

/// A copy that is being made: its words, and for each node of the table the nodes of the copy that mean the same.
struct Draft<'a> {
    random: &'a mut Random,
    words: Vec<u32>,
    images: Vec<Vec<u32>>,
}

impl Draft<'_> {
    fn count(&self) -> usize {
        self.words.len() / 3
    }

    fn mark(&self, node: u32) -> u32 {
        self.words[3 * node as usize]
    }

    fn push(&mut self, mark: u32, low: u32, high: u32) -> u32 {
        self.words.extend([mark, low, high]);
        self.count() as u32 - 1
    }

    /// One of the nodes that mean what the table's node means and that stand below this mark.
    fn image_below(&mut self, node: u32, mark: u32) -> u32 {
        let fitting: Vec<u32> = self.images[node as usize].iter().copied().filter(|image| self.mark(*image) > mark).collect();
        self.random.pick(&fitting)
    }

    /// A node of the table once more, with children of the copy.
    fn double(&mut self, node: u32, [mark, low, high]: [u32; 3]) {
        let (low, high) = (self.image_below(low, mark), self.image_below(high, mark));
        let image = self.push(mark, low, high);
        self.images[node as usize].push(image);
    }

    /// A node with low = high over one that means what the table's node means.
    fn useless_over(&mut self, node: u32) {
        let image = self.random.pick(&self.images[node as usize]);
        if self.mark(image) > 0 {
            let mark = self.random.below(self.mark(image) as usize) as u32;
            let made = self.push(mark, image, image);
            self.images[node as usize].push(made);
        }
    }

    /// A node that nothing will reach.
    fn unreachable(&mut self) {
        let [low, high] = [(); 2].map(|()| self.random.below(self.count()) as u32);
        let least = self.mark(low).min(self.mark(high));
        if least > 0 {
            let mark = self.random.below(least as usize) as u32;
            self.push(mark, low, high);
        }
    }

    fn clutter(&mut self, so_far: usize) {
        let node = self.random.below(so_far) as u32;
        match self.random.below(3) {
            0 => self.unreachable(),
            _ => self.useless_over(node),
        }
    }
}

/// An ordered copy of a reduced table with at most `extra` nodes more: doubled, useless and unreachable ones, the root last.
pub fn unreduced_copy(random: &mut Random, nodes: &[u32], extra: usize) -> Vec<u32> {
    let (n, count) = (nodes[0], nodes.len() / 3);
    let most = count.max(2) + extra;
    let mut copy = Draft { random, words: vec![n, 0, 0, n, 1, 1], images: vec![vec![0], vec![1]] };
    for node in 2..count {
        let triple = [nodes[3 * node], nodes[3 * node + 1], nodes[3 * node + 2]];
        copy.images.push(vec![]);
        copy.double(node as u32, triple);
        // the rest of the table, and its root once more, must still fit
        let still_needed = count - node + 1;
        for _ in 0..copy.random.below(4) {
            if copy.count() + still_needed + 1 < most {
                match copy.random.coin() {
                    true => copy.double(node as u32, triple),
                    false => copy.clutter(node),
                }
            }
        }
    }
    finish(copy, count, nodes, most)
}

/// The root comes last: once more, or under a useless node.
fn finish(mut copy: Draft, count: usize, nodes: &[u32], most: usize) -> Vec<u32> {
    let (root, marks) = (count as u32 - 1, nodes[0]);
    let is_constant = count <= 2;
    if is_constant && (marks == 0 || copy.count() == most) {
        return nodes.to_vec();
    }
    if is_constant {
        copy.useless_over(root);
    } else if copy.count() < most {
        copy.double(root, [nodes[3 * count - 3], nodes[3 * count - 2], nodes[3 * count - 1]]);
    }
    copy.words
}

/// A table of the oracle's in forms that mean the same: as made, renumbered, and copies that are not reduced.
pub fn forms(random: &mut Random, bdd: &Bdd) -> Vec<Vec<u32>> {
    let (as_made, renumbered) = (as_made(bdd), bdd.renumbered());
    let spare = MOST_NODES - bdd.size().max(2);
    let mut copy = |from: &[u32], extra: usize| unreduced_copy(random, from, extra.min(spare));
    let few = copy(&as_made, 4);
    let many = copy(&renumbered, renumbered.len());
    vec![as_made, renumbered, few, many]
}

/// A word for a place in a table: small, near what stands there or around it, or one that only looks right when cut.
pub fn damage(random: &mut Random, nodes: &[u32], at: usize) -> u32 {
    let (old, own, count) = (nodes[at], at as u32 / 3, nodes.len() as u32 / 3);
    let near = random.pick(&[0, old, own, count, nodes[0]]);
    let cut = random.pick(&[65_535, 65_536, 65_536 + old, (1 << 31) + old, u32::MAX - old, u32::MAX, 256 + old, old << 16]);
    let neighbour = nodes[random.below(nodes.len())];
    random.pick(&[near.wrapping_sub(1), near, near.wrapping_add(1), cut, neighbour])
}
