//! A script's functions in readable form.

use std::fmt::{self, Write};

use crate::outline::{Function, Head, NoProgram, Outline};

/// The functions of a script, to be shown.
///
/// Arguments are called a, b, c and so on; the parts of a variable l1 and r1, l2 and r2; bound variables x1, x2.
///
/// ```
/// use pegsienna::Listing;
///
/// let listing = Listing::of(&[1, 3, 0, 1, 5, 0, 1, 0, 0]).unwrap();
/// assert_eq!(listing.to_string(), "\
/// f0(a) =
///   parts of a
///     . => .
///     (l1 r1) => f0(r1)
/// ");
/// ```
#[derive(Clone, Debug)]
pub struct Listing<'a> {
    script: &'a [u8],
    outline: Outline,
}

impl<'a> Listing<'a> {
    /// The listing of a script, if it is a program.
    pub fn of(script: &'a [u8]) -> Result<Listing<'a>, NoProgram> {
        Ok(Listing { script, outline: Outline::of(script)? })
    }

    /// Its functions.
    pub fn outline(&self) -> &Outline {
        &self.outline
    }
}

impl fmt::Display for Listing<'_> {
    fn fmt(&self, f: &mut fmt::Formatter<'_>) -> fmt::Result {
        for (number, function) in self.outline.functions.iter().enumerate() {
            let names: Vec<Name> = (0..function.arguments).map(Name::Argument).collect();
            write!(f, "f{number}(")?;
            for (i, name) in names.iter().enumerate() {
                write!(f, "{}{name}", if i > 0 { ", " } else { "" })?;
            }
            f.write_str(") =")?;
            Writer { script: self.script, view: names.into_iter().rev().collect(), made: 0 }.body(f, function)?;
        }
        Ok(())
    }
}

#[derive(Clone, Copy)]
enum Name {
    Argument(u8),
    Left(usize),
    Right(usize),
    Bound(usize),
}

impl fmt::Display for Name {
    fn fmt(&self, f: &mut fmt::Formatter<'_>) -> fmt::Result {
        match self {
            Name::Argument(i) => f.write_char(char::from(b'a' + i)),
            Name::Left(n) => write!(f, "l{n}"),
            Name::Right(n) => write!(f, "r{n}"),
            Name::Bound(n) => write!(f, "x{n}"),
        }
    }
}

/// What is still to be written.
enum Next {
    Text(&'static str),
    /// An expression on lines of its own, indented so far; what stands before it ends a line.
    Lines(usize),
    /// A branch: behind its arrow if it takes one line, otherwise below.
    Branch(usize),
    /// An expression within a line.
    Inline,
    /// A new line, indented.
    Line(usize),
    /// The two variables of parts come into view.
    Parts,
    /// A bound variable comes into view.
    Bound(usize),
    /// So many variables stay in view.
    View(usize),
}

struct Writer<'a> {
    script: &'a [u8],
    /// The names of the variables in view, the newest last.
    view: Vec<Name>,
    /// How many names were made for parts and bound variables.
    made: usize,
}

impl Writer<'_> {
    fn body(mut self, f: &mut fmt::Formatter<'_>, function: &Function) -> fmt::Result {
        let mut at = function.start;
        let mut next = vec![Next::Text("\n"), Next::Lines(1)];
        while let Some(now) = next.pop() {
            match now {
                Next::Text(text) => f.write_str(text)?,
                Next::Line(indent) => write!(f, "\n{:1$}", "", 2 * indent)?,
                Next::View(variables) => self.view.truncate(variables),
                Next::Parts => {
                    self.made += 1;
                    self.view.extend([Name::Left(self.made), Name::Right(self.made)]);
                    write!(f, "(l{0} r{0})", self.made)?;
                }
                Next::Bound(n) => self.view.push(Name::Bound(n)),
                Next::Lines(indent) => next.extend(self.lines(f, &mut at, indent)?.into_iter().rev()),
                Next::Branch(indent) => match self.head(at)? {
                    Head::Parts(_) | Head::Bind => next.push(Next::Lines(indent)),
                    _ => next.extend([Next::Inline, Next::Text(" ")]),
                },
                Next::Inline => next.extend(self.inline(f, &mut at)?.into_iter().rev()),
            }
        }
        Ok(())
    }

    fn head(&self, at: usize) -> Result<Head, fmt::Error> {
        Head::at(self.script, at).map_err(|_| fmt::Error)
    }

    fn name(&self, variable: u8) -> Name {
        self.view[self.view.len() - 1 - usize::from(variable)]
    }

    /// Writes what begins an expression on lines of its own, and says what follows.
    fn lines(&mut self, f: &mut fmt::Formatter<'_>, at: &mut usize, indent: usize) -> Result<Vec<Next>, fmt::Error> {
        let head = self.head(*at)?;
        write!(f, "\n{:1$}", "", 2 * indent)?;
        let view = Next::View(self.view.len());
        Ok(match head {
            Head::Parts(variable) => {
                *at += head.width();
                write!(f, "parts of {}", self.name(variable))?;
                let leaf = [Next::Line(indent + 1), Next::Text(". =>"), Next::Branch(indent + 2)];
                let node = [Next::Line(indent + 1), Next::Parts, Next::Text(" =>"), Next::Branch(indent + 2), view];
                leaf.into_iter().chain(node).collect()
            }
            Head::Bind => {
                *at += head.width();
                self.made += 1;
                write!(f, "let x{} = ", self.made)?;
                vec![Next::Inline, Next::Bound(self.made), Next::Lines(indent), view]
            }
            _ => vec![Next::Inline],
        })
    }

    /// Writes what begins an expression within a line, and says what follows.
    fn inline(&mut self, f: &mut fmt::Formatter<'_>, at: &mut usize) -> Result<Vec<Next>, fmt::Error> {
        use Next::{Bound, Inline, Parts, Text, View};
        let head = self.head(*at)?;
        *at += head.width();
        let view = View(self.view.len());
        Ok(match head {
            Head::Variable(variable) => {
                write!(f, "{}", self.name(variable))?;
                vec![]
            }
            Head::Leaf => vec![Text(".")],
            Head::Node => vec![Text("("), Inline, Text(" "), Inline, Text(")")],
            Head::Parts(variable) => {
                write!(f, "{{parts of {}; . => ", self.name(variable))?;
                vec![Inline, Text("; "), Parts, Text(" => "), Inline, view, Text("}")]
            }
            Head::Bind => {
                self.made += 1;
                write!(f, "{{let x{} = ", self.made)?;
                vec![Inline, Bound(self.made), Text("; "), Inline, view, Text("}")]
            }
            Head::Call { function, arguments } => {
                write!(f, "f{function}(")?;
                let mut next = Vec::new();
                for i in 0..arguments {
                    next.extend((i > 0).then_some(Text(", ")));
                    next.push(Inline);
                }
                next.push(Text(")"));
                next
            }
        })
    }
}

#[cfg(test)]
mod tests {
    use super::*;

    fn show(script: &[u8]) -> String {
        Listing::of(script).unwrap().to_string()
    }

    #[test]
    fn shows_ackermann() {
        let ack = include_bytes!("../../examples/ack.script");
        let expected = "\
f0(a, b) =
  parts of a
    . => (. b)
    (l1 r1) =>
      parts of b
        . => f0(r1, (. .))
        (l2 r2) => f0(r1, f0(a, r2))
";
        assert_eq!(show(ack), expected);
    }

    #[test]
    fn shows_binds_and_parts_within_a_line() {
        // f(a) = let x1 = (let x2 = . in x2) in parts of x1: (a x1), else f1(parts of l3: a, else r4); f1(a) = a
        let script = [1, 4, 4, 1, 0, 0, 3, 0, 2, 0, 1, 0, 0, 5, 1, 1, 3, 1, 0, 3, 0, 0, 1, 0, 0];
        let expected = "\
f0(a) =
  let x1 = {let x2 = .; x2}
  parts of x1
    . => (a x1)
    (l3 r3) => f1({parts of l3; . => a; (l4 r4) => r4})
f1(a) =
  a
";
        assert_eq!(show(&script), expected);
        assert_eq!(show(&[]), "");
        assert_eq!(show(&[0, 5, 0, 0]), "f0() =\n  f0()\n");
    }

    #[test]
    fn the_deepest_nesting_needs_no_stack() {
        let inline: Vec<u8> = [0].into_iter().chain([2, 1].repeat(2047)).chain([1]).collect();
        assert_eq!(show(&inline).matches("(. ").count(), 2047);
        let lines: Vec<u8> = [1].into_iter().chain([3, 0, 1].repeat(1364)).chain([1]).collect();
        assert_eq!(show(&lines).lines().count(), 1 + 1 + 3 * 1364 - 1);
    }
}
