// A B-tree of the numbers of runs, in the order of the text, which counts visible characters and newlines.

/// The run that a new tree has.
pub const ROOT: usize = 0;
const WIDTH: usize = 32;
const NONE: u32 = u32::MAX;
/// A leaf, and a slot of it.
pub type Spot = (u32, usize);

/// How many visible characters, and how many newlines among them.
#[derive(Clone, Copy, Default)]
pub struct Sum {
    pub visible: usize,
    pub lines: usize,
}

/// A node has runs where it is a leaf, and else nodes, with the sum of each.
struct Node {
    leaf: bool,
    parent: u32,
    next: u32,
    len: usize,
    kids: [u32; WIDTH],
    sums: [Sum; WIDTH],
}

impl Node {
    fn new(leaf: bool, parent: u32, next: u32) -> Self {
        Node { leaf, parent, next, len: 0, kids: [NONE; WIDTH], sums: [Sum::default(); WIDTH] }
    }

    fn slot(&self, kid: u32) -> usize {
        self.kids[..self.len].iter().position(|it| *it == kid).unwrap()
    }
}

/// A B-tree of the numbers of runs, in the order of the text.
pub struct Tree {
    nodes: Vec<Node>,
    root: u32,
    homes: Vec<u32>,
}

impl Tree {
    pub fn new() -> Self {
        let mut leaf = Node::new(true, NONE, NONE);
        leaf.kids[0] = ROOT as u32;
        leaf.len = 1;
        Tree { nodes: vec![leaf], root: 0, homes: vec![0] }
    }

    fn node(&self, number: u32) -> &Node {
        &self.nodes[number as usize]
    }

    pub fn total(&self) -> Sum {
        let root = self.node(self.root);
        root.sums[..root.len].iter().fold(Sum::default(), |all, it| Sum { visible: all.visible + it.visible, lines: all.lines + it.lines })
    }

    /// Where a run stands: its leaf, and its slot there.
    pub fn spot(&self, run: usize) -> Spot {
        let leaf = self.homes[run];
        (leaf, self.node(leaf).slot(run as u32))
    }

    /// The spot behind one.
    pub fn next(&self, (leaf, slot): Spot) -> Option<Spot> {
        let node = self.node(leaf);
        if slot + 1 < node.len {
            return Some((leaf, slot + 1));
        }
        (node.next != NONE).then_some((node.next, 0))
    }

    pub fn run(&self, (leaf, slot): Spot) -> usize {
        self.node(leaf).kids[slot] as usize
    }

    /// Writes the sum of a slot, and what that changes above it.
    pub fn set(&mut self, (mut number, mut slot): Spot, sum: Sum) {
        let old = self.node(number).sums[slot];
        let (visible, lines) = (sum.visible.wrapping_sub(old.visible), sum.lines.wrapping_sub(old.lines));
        loop {
            let node = &mut self.nodes[number as usize];
            let here = &mut node.sums[slot];
            here.visible = here.visible.wrapping_add(visible);
            here.lines = here.lines.wrapping_add(lines);
            if node.parent == NONE {
                return;
            }
            let kid = number;
            number = node.parent;
            slot = self.node(number).slot(kid);
        }
    }

    /// The sum of a run.
    pub fn sum(&self, (leaf, slot): Spot) -> Sum {
        self.node(leaf).sums[slot]
    }

    /// Puts the next new run in, behind a spot.
    pub fn put_behind(&mut self, (leaf, slot): Spot, sum: Sum) {
        let run = self.homes.len() as u32;
        self.homes.push(leaf);
        self.put(leaf, slot + 1, run, sum);
    }

    /// Puts a kid into a node, before the slot.
    fn put(&mut self, mut number: u32, mut slot: usize, kid: u32, sum: Sum) {
        if self.node(number).len == WIDTH {
            let right = self.split(number);
            let kept = self.node(number).len;
            if slot > kept {
                (number, slot) = (right, slot - kept);
            }
        }
        let node = &mut self.nodes[number as usize];
        node.kids.copy_within(slot..node.len, slot + 1);
        node.sums.copy_within(slot..node.len, slot + 1);
        node.kids[slot] = kid;
        node.sums[slot] = Sum::default();
        node.len += 1;
        let leaf = node.leaf;
        self.house(leaf, kid, number);
        self.set((number, slot), sum);
    }

    fn house(&mut self, leaf: bool, kid: u32, number: u32) {
        if leaf {
            self.homes[kid as usize] = number;
        } else {
            self.nodes[kid as usize].parent = number;
        }
    }

    /// Moves the second half of a node into a new one behind it.
    fn split(&mut self, number: u32) -> u32 {
        if self.node(number).parent == NONE {
            let mut root = Node::new(false, NONE, NONE);
            (root.kids[0], root.sums[0], root.len) = (number, self.total(), 1);
            self.root = self.nodes.len() as u32;
            self.nodes[number as usize].parent = self.root;
            self.nodes.push(root);
        }
        let right = self.nodes.len() as u32;
        let node = &mut self.nodes[number as usize];
        let (half, leaf) = (WIDTH / 2, node.leaf);
        let mut new = Node::new(leaf, node.parent, node.next);
        new.kids[..WIDTH - half].copy_from_slice(&node.kids[half..]);
        new.sums[..WIDTH - half].copy_from_slice(&node.sums[half..]);
        new.len = WIDTH - half;
        (node.len, node.next) = (half, right);
        let (mut moved, parent) = (Sum::default(), node.parent);
        for sum in &new.sums[..new.len] {
            moved = Sum { visible: moved.visible + sum.visible, lines: moved.lines + sum.lines };
        }
        let kids = new.kids;
        self.nodes.push(new);
        for kid in &kids[..WIDTH - half] {
            self.house(leaf, *kid, right);
        }
        let slot = self.node(parent).slot(number);
        let kept = self.node(parent).sums[slot];
        self.set((parent, slot), Sum { visible: kept.visible - moved.visible, lines: kept.lines - moved.lines });
        self.put(parent, slot + 1, right, moved);
        right
    }

    /// The spot of the run that has the character at a place or, by lines, the newline of a number, and the sum before it.
    pub fn find(&self, wanted: usize, by: fn(&Sum) -> usize) -> (Spot, Sum) {
        let (mut number, mut before) = (self.root, Sum::default());
        loop {
            let node = self.node(number);
            let mut slot = 0;
            while wanted >= by(&before) + by(&node.sums[slot]) {
                before.visible += node.sums[slot].visible;
                before.lines += node.sums[slot].lines;
                slot += 1;
            }
            if node.leaf {
                return ((number, slot), before);
            }
            number = node.kids[slot];
        }
    }
}
