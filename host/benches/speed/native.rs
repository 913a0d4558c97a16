//! The benchmark's algorithms in plain Rust, over nodes in a slice of words: as fast as this representation goes.

/// Nodes, two words each; number 0 is the leaf.
pub struct Nodes {
    words: Vec<u32>,
    used: usize,
}

impl Nodes {
    pub fn new(room: usize) -> Nodes {
        Nodes { words: vec![0; 2 * room], used: 0 }
    }

    pub fn used(&self) -> usize {
        self.used
    }

    /// Forgets all nodes but the first ones.
    pub fn keep(&mut self, used: usize) {
        self.used = used;
    }

    fn node(&mut self, left: u32, right: u32) -> u32 {
        let at = 2 * self.used;
        self.words[at] = left;
        self.words[at + 1] = right;
        self.used += 1;
        self.used as u32
    }

    fn left(&self, n: u32) -> u32 {
        self.words[2 * (n as usize - 1)]
    }

    fn right(&self, n: u32) -> u32 {
        self.words[2 * (n as usize - 1) + 1]
    }

    /// Reads a tree in prefix form.
    pub fn read(&mut self, bytes: &[u8]) -> u32 {
        let mut stack = Vec::new();
        for &byte in bytes.iter().rev() {
            let tree = match byte {
                0 => 0,
                _ => {
                    let (left, right) = (stack.pop().expect("a tree"), stack.pop().expect("a tree"));
                    self.node(left, right)
                }
            };
            stack.push(tree);
        }
        stack[0]
    }

    pub fn write(&self, root: u32) -> Vec<u8> {
        let (mut stack, mut bytes) = (vec![root], Vec::new());
        while let Some(tree) = stack.pop() {
            bytes.push(u8::from(tree != 0));
            if tree != 0 {
                stack.extend([self.right(tree), self.left(tree)]);
            }
        }
        bytes
    }
}

pub type Native = fn(&mut Nodes, &[u32]) -> u32;

pub fn ack(nodes: &mut Nodes, args: &[u32]) -> u32 {
    fn ack(nodes: &mut Nodes, m: u32, n: u32) -> u32 {
        if m == 0 {
            return nodes.node(0, n);
        }
        let before = nodes.right(m);
        if n == 0 {
            let one = nodes.node(0, 0);
            return ack(nodes, before, one);
        }
        let inner = ack(nodes, m, nodes.right(n));
        ack(nodes, before, inner)
    }
    ack(nodes, args[0], args[1])
}

pub fn sort(nodes: &mut Nodes, args: &[u32]) -> u32 {
    fn less_or_equal(nodes: &Nodes, mut a: u32, mut b: u32) -> bool {
        while a != 0 {
            if b == 0 {
                return false;
            }
            (a, b) = (nodes.right(a), nodes.right(b));
        }
        true
    }
    fn insert(nodes: &mut Nodes, x: u32, list: u32) -> u32 {
        if list == 0 {
            return nodes.node(x, 0);
        }
        let (first, rest) = (nodes.left(list), nodes.right(list));
        if less_or_equal(nodes, x, first) {
            return nodes.node(x, list);
        }
        let rest = insert(nodes, x, rest);
        nodes.node(first, rest)
    }
    fn sort(nodes: &mut Nodes, list: u32) -> u32 {
        if list == 0 {
            return 0;
        }
        let (first, rest) = (nodes.left(list), nodes.right(list));
        let sorted = sort(nodes, rest);
        insert(nodes, first, sorted)
    }
    sort(nodes, args[0])
}

pub fn mirror(nodes: &mut Nodes, args: &[u32]) -> u32 {
    fn mirror(nodes: &mut Nodes, tree: u32) -> u32 {
        if tree == 0 {
            return 0;
        }
        let right = mirror(nodes, nodes.right(tree));
        let left = mirror(nodes, nodes.left(tree));
        nodes.node(right, left)
    }
    mirror(nodes, args[0])
}

pub fn reverse(nodes: &mut Nodes, args: &[u32]) -> u32 {
    let (mut list, mut reversed) = (args[0], args[1]);
    while list != 0 {
        reversed = nodes.node(nodes.left(list), reversed);
        list = nodes.right(list);
    }
    reversed
}

pub fn turn(nodes: &mut Nodes, args: &[u32]) -> u32 {
    let mut all: [u32; 8] = args.try_into().expect("eight arguments");
    while all[0] != 0 {
        let [first, b, c, d, e, f, g, h] = all;
        all = [b, c, d, e, f, g, h, nodes.right(first)];
    }
    all[1]
}
