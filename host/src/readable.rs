//! Trees in readable form: `.` is a leaf, `(l r)` a node, `[a b c]` a list that ends in a leaf, and a decimal number so many nodes leaning right.
//! White space may stand anywhere, and has to only between two numbers.

use std::error::Error;
use std::fmt;
use std::str::FromStr;

use crate::Tree;

/// The largest number that is read. Each one of it takes a node.
pub const LARGEST_NUMBER: usize = 10_000_000;

/// Why a text is no tree.
#[derive(Clone, Copy, Debug, PartialEq, Eq)]
pub struct BadText {
    /// Where the fault is found, counted in bytes from 0.
    pub at: usize,
    /// What is wrong there.
    pub why: Why,
}

/// What is wrong with a text.
#[derive(Clone, Copy, Debug, PartialEq, Eq)]
pub enum Why {
    /// A character that has no place in a tree.
    Character,
    /// The text ends where a tree should begin.
    NoTree,
    /// A second tree where one was asked for.
    SecondTree,
    /// A bracket that is never closed: the text ends first. The place is that of the bracket.
    Open,
    /// A bracket that closes nothing, or another kind of bracket.
    Close,
    /// A node with fewer than two trees. The place is that of its `)`.
    FewParts,
    /// A node with more than two trees. The place is that of the third.
    ManyParts,
    /// A number larger than [`LARGEST_NUMBER`].
    Number,
}

/// A bracket that isn't closed yet, and what stands in it so far.
struct Open {
    at: usize,
    bracket: u8,
    trees: Vec<Tree>,
}

struct Reader<'a> {
    text: &'a [u8],
    at: usize,
    open: Vec<Open>,
    /// Trees outside all brackets, with where they begin.
    done: Vec<(usize, Tree)>,
}

impl Reader<'_> {
    fn read(mut self) -> Result<Vec<(usize, Tree)>, BadText> {
        while let Some(&byte) = self.text.get(self.at) {
            let at = self.at;
            self.at += 1;
            match byte {
                b' ' | b'\t' | b'\n' | b'\r' => {}
                b'(' | b'[' => {
                    self.begin(at)?;
                    self.open.push(Open { at, bracket: byte, trees: Vec::new() });
                }
                b')' | b']' => self.close(at, byte)?,
                b'.' => self.tree(at, Tree::leaf())?,
                b'0'..=b'9' => {
                    let n = self.number(at)?;
                    self.tree(at, Tree::number(n))?;
                }
                _ => return Err(BadText { at, why: Why::Character }),
            }
        }
        match self.open.pop() {
            Some(open) => Err(BadText { at: open.at, why: Why::Open }),
            None => Ok(self.done),
        }
    }

    /// A tree may begin here: not where a node has its two already.
    fn begin(&self, at: usize) -> Result<(), BadText> {
        match self.open.last() {
            Some(open) if open.bracket == b'(' && open.trees.len() == 2 => Err(BadText { at, why: Why::ManyParts }),
            _ => Ok(()),
        }
    }

    fn tree(&mut self, at: usize, tree: Tree) -> Result<(), BadText> {
        self.begin(at)?;
        match self.open.last_mut() {
            Some(open) => open.trees.push(tree),
            None => self.done.push((at, tree)),
        }
        Ok(())
    }

    fn close(&mut self, at: usize, bracket: u8) -> Result<(), BadText> {
        let open = self.open.pop().ok_or(BadText { at, why: Why::Close })?;
        let tree = match (open.bracket, bracket) {
            (b'[', b']') => Tree::list(open.trees),
            (b'(', b')') => {
                let [left, right] = <[Tree; 2]>::try_from(open.trees).map_err(|_| BadText { at, why: Why::FewParts })?;
                Tree::node(left, right)
            }
            _ => return Err(BadText { at, why: Why::Close }),
        };
        self.tree(open.at, tree)
    }

    /// The number whose first digit stands at `at`.
    fn number(&mut self, at: usize) -> Result<usize, BadText> {
        let digits = self.text[at..].iter().take_while(|byte| byte.is_ascii_digit());
        let mut n = 0;
        self.at = at;
        for digit in digits {
            n = n * 10 + usize::from(digit - b'0');
            if n > LARGEST_NUMBER {
                return Err(BadText { at, why: Why::Number });
            }
            self.at += 1;
        }
        Ok(n)
    }
}

impl Tree {
    /// Reads all the trees of a text.
    ///
    /// ```
    /// use pegsienna::Tree;
    ///
    /// let trees = Tree::read_all("2 [1 0]").unwrap();
    /// assert_eq!(trees.len(), 2);
    /// assert_eq!(Tree::read_all("2 [1 0").unwrap_err().at, 2);
    /// ```
    pub fn read_all(text: &str) -> Result<Vec<Tree>, BadText> {
        let trees = placed(text)?;
        Ok(trees.into_iter().map(|(_, tree)| tree).collect())
    }
}

fn placed(text: &str) -> Result<Vec<(usize, Tree)>, BadText> {
    Reader { text: text.as_bytes(), at: 0, open: Vec::new(), done: Vec::new() }.read()
}

impl FromStr for Tree {
    type Err = BadText;

    fn from_str(text: &str) -> Result<Tree, BadText> {
        let mut trees = placed(text)?.into_iter();
        let (_, tree) = trees.next().ok_or(BadText { at: text.len(), why: Why::NoTree })?;
        match trees.next() {
            Some((at, _)) => Err(BadText { at, why: Why::SecondTree }),
            None => Ok(tree),
        }
    }
}

impl fmt::Display for BadText {
    fn fmt(&self, f: &mut fmt::Formatter<'_>) -> fmt::Result {
        write!(f, "byte {}: ", self.at)?;
        match self.why {
            Why::Character => f.write_str("a character that has no place in a tree (write . for a leaf, (l r), [a b c] or a number)"),
            Why::NoTree => f.write_str("a tree is missing"),
            Why::SecondTree => f.write_str("a second tree, where one was asked for"),
            Why::Open => f.write_str("this bracket is never closed"),
            Why::Close => f.write_str("this bracket closes none that is open here"),
            Why::FewParts => f.write_str("a node has two trees, this one fewer"),
            Why::ManyParts => f.write_str("a node has two trees, and this is the third"),
            Why::Number => write!(f, "a number larger than {LARGEST_NUMBER}"),
        }
    }
}

impl Error for BadText {}

/// How a tree is written.
#[derive(Clone, Copy)]
enum Form {
    Number(usize),
    List,
    Node,
}

/// What is known of one tree inside the one that is shown.
struct Entry {
    form: Form,
    /// How many characters its shortest form has.
    length: usize,
    /// How many the items of the list that it is take, each with the character before it.
    items: usize,
    /// Whether all of these items are numbers.
    numbers: bool,
    /// Where its right part's entry stands; the left part's is the next one.
    right: usize,
}

impl Entry {
    fn leaf() -> Entry {
        Entry { form: Form::Number(0), length: 1, items: 0, numbers: true, right: 0 }
    }

    fn node(left: &Entry, right: &Entry, right_at: usize) -> Entry {
        let items = 1 + left.length + right.items;
        let numbers = matches!(left.form, Form::Number(_)) && right.numbers;
        let (form, length) = match (left.form, right.form) {
            (Form::Number(0), Form::Number(n)) => (Form::Number(n + 1), digits(n + 1)),
            _ if items < left.length + right.length + 3 => (Form::List, items + 1),
            _ => (Form::Node, left.length + right.length + 3),
        };
        Entry { form, length, items, numbers, right: right_at }
    }
}

fn digits(n: usize) -> usize {
    n.checked_ilog10().unwrap_or(0) as usize + 1
}

/// An entry for the tree and for each in it, a node's before its parts'. Found from the last to the first, so that the parts' are there.
fn entries(tree: &Tree) -> Vec<Entry> {
    let heads = tree.to_bytes();
    // the last first, until all are there
    let mut entries: Vec<Entry> = Vec::with_capacity(heads.len());
    let mut waiting: Vec<usize> = Vec::new();
    for (at, &head) in heads.iter().enumerate().rev() {
        let entry = match (head, waiting.pop_if(|_| head == 1), waiting.pop_if(|_| head == 1)) {
            (1, Some(left), Some(right)) => {
                let entry_at = |place: usize| &entries[heads.len() - 1 - place];
                Entry::node(entry_at(left), entry_at(right), right)
            }
            _ => Entry::leaf(),
        };
        entries.push(entry);
        waiting.push(at);
    }
    entries.reverse();
    entries
}

/// What is still to be written.
enum Next {
    /// The tree of an entry, with the sign for a leaf.
    Tree(usize, char),
    /// What is left of a list, and the sign for its leaves.
    Items(usize, char),
    Text(&'static str),
}

/// The shortest form, a list where a node takes as much. Leaves are shown as `0` in a list of numbers, otherwise as `.`.
impl fmt::Display for Tree {
    fn fmt(&self, f: &mut fmt::Formatter<'_>) -> fmt::Result {
        use fmt::Write;
        let entries = entries(self);
        let mut next = vec![Next::Tree(0, '.')];
        while let Some(now) = next.pop() {
            match now {
                Next::Text(text) => f.write_str(text)?,
                Next::Items(at, leaf) if entries[at].items > 0 => {
                    f.write_char(' ')?;
                    next.extend([Next::Items(entries[at].right, leaf), Next::Tree(at + 1, leaf)]);
                }
                Next::Items(..) => f.write_char(']')?,
                Next::Tree(at, leaf) => match entries[at].form {
                    Form::Number(0) => f.write_char(leaf)?,
                    Form::Number(n) => write!(f, "{n}")?,
                    Form::List => {
                        let leaf = if entries[at].numbers { '0' } else { '.' };
                        f.write_char('[')?;
                        next.extend([Next::Items(entries[at].right, leaf), Next::Tree(at + 1, leaf)]);
                    }
                    Form::Node => {
                        f.write_char('(')?;
                        next.extend([Next::Text(")"), Next::Tree(entries[at].right, '.'), Next::Text(" "), Next::Tree(at + 1, '.')]);
                    }
                },
            }
        }
        Ok(())
    }
}

#[cfg(test)]
mod tests {
    use super::*;

    fn read(text: &str) -> Tree {
        text.parse().unwrap()
    }

    fn fault(text: &str) -> (usize, Why) {
        let fault = text.parse::<Tree>().unwrap_err();
        (fault.at, fault.why)
    }

    #[test]
    fn reads_all_forms() {
        assert_eq!(read("."), Tree::leaf());
        assert_eq!(read("0"), Tree::leaf());
        assert_eq!(read("[]"), Tree::leaf());
        assert_eq!(read("007"), Tree::number(7));
        assert_eq!(read("( . \n .)"), Tree::number(1));
        assert_eq!(read("(..)"), Tree::number(1));
        assert_eq!(read("[1(2 .)[3]]"), Tree::list([Tree::number(1), Tree::node(Tree::number(2), Tree::leaf()), Tree::list([Tree::number(3)])]));
        assert_eq!(Tree::read_all(" 1 2\t3 ").unwrap().len(), 3);
        assert_eq!(Tree::read_all("").unwrap(), []);
    }

    #[test]
    fn says_where_the_fault_is() {
        assert_eq!(fault(""), (0, Why::NoTree));
        assert_eq!(fault("  "), (2, Why::NoTree));
        assert_eq!(fault("1 2"), (2, Why::SecondTree));
        assert_eq!(fault("(1 2"), (0, Why::Open));
        assert_eq!(fault("[(1 2)"), (0, Why::Open));
        assert_eq!(fault("1 )"), (2, Why::Close));
        assert_eq!(fault("(1 2]"), (4, Why::Close));
        assert_eq!(fault("(1)"), (2, Why::FewParts));
        assert_eq!(fault("()"), (1, Why::FewParts));
        assert_eq!(fault("(1 2 3)"), (5, Why::ManyParts));
        assert_eq!(fault("(1 2 (3 4))"), (5, Why::ManyParts));
        assert_eq!(fault("[1 x]"), (3, Why::Character));
        assert_eq!(fault("[1 é]"), (3, Why::Character));
        assert_eq!(fault(" 99999999999999999999999"), (1, Why::Number));
        assert_eq!(fault("10000001"), (0, Why::Number));
        let mut largest = Reader { text: b"10000000", at: 0, open: Vec::new(), done: Vec::new() };
        assert_eq!(largest.number(0), Ok(LARGEST_NUMBER));
        assert_eq!(fault("-1"), (0, Why::Character));
    }

    #[test]
    fn shows_the_shortest_form() {
        for text in [".", "1", "17", "[3 0 2]", "[[1] .]", "(3 5)", "[[[2]]]", "[2 [1]]", "((5 5) (5 5))", "[0 1]", "[[0 1] .]"] {
            assert_eq!(read(text).to_string(), text);
        }
        // one character shorter as nodes, and with one item more one longer
        for text in ["(1 (1 (1 (1 (1 (1 (1 (1 (1 10)))))))))", "[1 1 1 1 1 1 1 1 1 1 0 0 0 0 0 0 0 0 0 0]"] {
            assert_eq!(read(text).to_string(), text);
        }
        assert_eq!(read("(1 1)").to_string(), "[1 0]");
        assert_eq!(read("(. .)").to_string(), "1");
        assert_eq!(read("[. . .]").to_string(), "3");
        assert_eq!(format!("{:?}", read("[2]")), "Tree([2])");
    }

    #[test]
    fn every_small_tree_is_read_back() {
        let mut by_nodes: Vec<Vec<Tree>> = vec![vec![Tree::leaf()]];
        for n in 1..=8 {
            let all = (0..n).flat_map(|left| {
                by_nodes[left].iter().flat_map(|l| by_nodes[n - 1 - left].iter().map(|r| Tree::node(l.clone(), r.clone()))).collect::<Vec<_>>()
            });
            by_nodes.push(all.collect());
        }
        for tree in by_nodes.iter().flatten() {
            assert_eq!(&read(&tree.to_string()), tree);
        }
        assert_eq!(by_nodes[8].len(), 1430);
    }

    #[test]
    fn deep_trees_do_not_need_stack() {
        let left = (0..1_000_000).fold(Tree::leaf(), |before, _| Tree::node(before, Tree::leaf()));
        let zigzag =
            (0..1_000_000).fold(Tree::leaf(), |before, n| if n % 2 == 0 { Tree::node(before, Tree::leaf()) } else { Tree::node(Tree::number(3), before) });
        for tree in [Tree::number(1_000_000), left, zigzag] {
            assert_eq!(read(&tree.to_string()), tree);
        }
    }
}
