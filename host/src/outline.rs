//! The outline of a script: where its functions are, how deep its expressions nest, and what is wrong with bytes that are no program.
//!
//! Nothing that is promised rests on this: what a script is, the proved calls say. This is for people to look at a script, and for sizing the native stack.

use std::error::Error;
use std::fmt;

/// The most bytes of a program.
pub const MOST_BYTES: usize = 4096;
/// The most functions of a program.
pub const MOST_FUNCTIONS: usize = 64;
/// The most arguments of a function.
pub const MOST_ARGUMENTS: u8 = 8;

/// The first byte of an expression, with the bytes that belong to it.
#[derive(Clone, Copy, Debug, PartialEq, Eq)]
pub(crate) enum Head {
    Variable(u8),
    Leaf,
    Node,
    Parts(u8),
    Bind,
    Call { function: u8, arguments: u8 },
}

impl Head {
    /// The head that begins at `at`.
    pub(crate) fn at(bytes: &[u8], at: usize) -> Result<Head, NoProgram> {
        let missing = NoProgram { at: bytes.len(), why: Fault::Missing };
        match *bytes.get(at..).unwrap_or_default() {
            [0, variable, ..] => Ok(Head::Variable(variable)),
            [1, ..] => Ok(Head::Leaf),
            [2, ..] => Ok(Head::Node),
            [3, variable, ..] => Ok(Head::Parts(variable)),
            [4, ..] => Ok(Head::Bind),
            [5, function, arguments, ..] => Ok(Head::Call { function, arguments }),
            [] | [0 | 3 | 5, ..] => Err(missing),
            [byte, ..] => Err(NoProgram { at, why: Fault::Head(byte) }),
        }
    }

    /// How many bytes it has.
    pub(crate) fn width(self) -> usize {
        match self {
            Head::Leaf | Head::Node | Head::Bind => 1,
            Head::Variable(_) | Head::Parts(_) => 2,
            Head::Call { .. } => 3,
        }
    }

    /// How many expressions follow.
    fn expressions(self) -> usize {
        match self {
            Head::Variable(_) | Head::Leaf => 0,
            Head::Node | Head::Parts(_) | Head::Bind => 2,
            Head::Call { arguments, .. } => usize::from(arguments),
        }
    }
}

/// A function of a script.
#[derive(Clone, Copy, Debug, PartialEq, Eq)]
pub struct Function {
    /// How many arguments it takes.
    pub arguments: u8,
    /// Where its body begins, in bytes from the script's start.
    pub start: usize,
    /// Where its body ends.
    pub end: usize,
}

/// The functions of a script, and how deep its expressions nest.
#[derive(Clone, Debug, PartialEq, Eq)]
pub struct Outline {
    /// The functions, by their numbers.
    pub functions: Vec<Function>,
    /// The most expressions that stand one in another.
    pub nesting: usize,
}

/// Why bytes are no program.
#[derive(Clone, Copy, Debug, PartialEq, Eq)]
pub struct NoProgram {
    /// Where the fault is found, counted in bytes from 0.
    pub at: usize,
    /// What is wrong there.
    pub why: Fault,
}

/// What is wrong with a script.
#[derive(Clone, Copy, Debug, PartialEq, Eq)]
pub enum Fault {
    /// More than [`MOST_BYTES`].
    ManyBytes,
    /// More than [`MOST_FUNCTIONS`].
    ManyFunctions,
    /// A function with more than [`MOST_ARGUMENTS`].
    ManyArguments(u8),
    /// A byte with which no expression begins.
    Head(u8),
    /// The bytes end inside a function.
    Missing,
    /// A variable that isn't in view.
    NotInView {
        /// The variable.
        variable: u8,
        /// How many are in view.
        in_view: usize,
    },
    /// A call of a function that isn't there.
    NoFunction(u8),
    /// A call with another number of arguments than the function takes.
    Arguments {
        /// The function called.
        function: u8,
        /// How many it is called with.
        given: u8,
        /// How many it takes.
        takes: u8,
    },
}

impl Outline {
    /// The outline of a script, or the first fault found.
    pub fn of(script: &[u8]) -> Result<Outline, NoProgram> {
        if script.len() > MOST_BYTES {
            return Err(NoProgram { at: MOST_BYTES, why: Fault::ManyBytes });
        }
        let functions = functions(script)?;
        let mut nesting = 0;
        for function in &functions {
            nesting = nesting.max(body_nesting(script, &functions, function)?);
        }
        Ok(Outline { functions, nesting })
    }
}

fn functions(script: &[u8]) -> Result<Vec<Function>, NoProgram> {
    let mut functions = Vec::new();
    let mut at = 0;
    while let Some(&arguments) = script.get(at) {
        if functions.len() == MOST_FUNCTIONS {
            return Err(NoProgram { at, why: Fault::ManyFunctions });
        }
        if arguments > MOST_ARGUMENTS {
            return Err(NoProgram { at, why: Fault::ManyArguments(arguments) });
        }
        let start = at + 1;
        let end = end_of_expression(script, start)?;
        functions.push(Function { arguments, start, end });
        at = end;
    }
    Ok(functions)
}

fn end_of_expression(script: &[u8], start: usize) -> Result<usize, NoProgram> {
    let mut at = start;
    let mut expected = 1;
    while expected > 0 {
        let head = Head::at(script, at)?;
        expected += head.expressions();
        expected -= 1;
        at += head.width();
    }
    Ok(at)
}

/// How deep a body nests, if each of its variables is in view and each call fits.
fn body_nesting(script: &[u8], functions: &[Function], function: &Function) -> Result<usize, NoProgram> {
    let mut nesting = 0;
    let mut at = function.start;
    // for each expression to come, the variables in view and the expressions around it
    let mut expected = vec![(usize::from(function.arguments), 1)];
    while let Some((in_view, level)) = expected.pop() {
        let head = Head::at(script, at)?;
        check(functions, head, in_view).map_err(|why| NoProgram { at, why })?;
        nesting = nesting.max(level);
        at += head.width();
        let inside = (in_view, level + 1);
        match head {
            Head::Variable(_) | Head::Leaf => {}
            Head::Node => expected.extend([inside; 2]),
            Head::Parts(_) => expected.extend([(in_view + 2, level + 1), inside]),
            Head::Bind => expected.extend([(in_view + 1, level + 1), inside]),
            Head::Call { arguments, .. } => expected.extend((0..arguments).map(|_| inside)),
        }
    }
    Ok(nesting)
}

fn check(functions: &[Function], head: Head, in_view: usize) -> Result<(), Fault> {
    match head {
        Head::Variable(variable) | Head::Parts(variable) if usize::from(variable) >= in_view => Err(Fault::NotInView { variable, in_view }),
        Head::Call { function, arguments } => match functions.get(usize::from(function)) {
            None => Err(Fault::NoFunction(function)),
            Some(callee) if callee.arguments != arguments => Err(Fault::Arguments { function, given: arguments, takes: callee.arguments }),
            Some(_) => Ok(()),
        },
        _ => Ok(()),
    }
}

impl fmt::Display for NoProgram {
    fn fmt(&self, f: &mut fmt::Formatter<'_>) -> fmt::Result {
        write!(f, "byte {}: ", self.at)?;
        match self.why {
            Fault::ManyBytes => write!(f, "a program has at most {MOST_BYTES} bytes"),
            Fault::ManyFunctions => write!(f, "a program has at most {MOST_FUNCTIONS} functions"),
            Fault::ManyArguments(n) => write!(f, "a function of {n} arguments; the most are {MOST_ARGUMENTS}"),
            Fault::Head(byte) => write!(f, "{byte} stands where an expression begins (0 to 5)"),
            Fault::Missing => f.write_str("the bytes end inside a function"),
            Fault::NotInView { variable, in_view } => write!(f, "variable {variable}, where {in_view} are in view"),
            Fault::NoFunction(function) => write!(f, "a call of function {function}, which isn't there"),
            Fault::Arguments { function, given, takes } => write!(f, "a call of function {function} with {given} arguments; it takes {takes}"),
        }
    }
}

impl Error for NoProgram {}

#[cfg(test)]
mod tests {
    use super::*;

    fn fault(script: &[u8]) -> (usize, Fault) {
        let fault = Outline::of(script).unwrap_err();
        (fault.at, fault.why)
    }

    #[test]
    fn finds_functions() {
        let outline = Outline::of(&[0, 5, 1, 0, 0, 1]).unwrap();
        assert_eq!(outline.functions, [Function { arguments: 0, start: 1, end: 4 }, Function { arguments: 0, start: 5, end: 6 }]);
        assert_eq!(outline.nesting, 1);
        assert_eq!(Outline::of(&[]).unwrap(), Outline { functions: vec![], nesting: 0 });
        assert_eq!(Outline::of(&[0, 2, 1, 2, 1, 1]).unwrap().nesting, 3);
    }

    #[test]
    fn names_faults() {
        assert_eq!(fault(&[0; 4097]), (4096, Fault::ManyBytes));
        assert_eq!(fault(&[0, 1].repeat(65)), (128, Fault::ManyFunctions));
        assert_eq!(fault(&[9, 1]), (0, Fault::ManyArguments(9)));
        assert_eq!(fault(&[0, 6]), (1, Fault::Head(6)));
        assert_eq!(fault(&[0]), (1, Fault::Missing));
        assert_eq!(fault(&[0, 2, 1]), (3, Fault::Missing));
        assert_eq!(fault(&[0, 5, 0]), (3, Fault::Missing));
        assert_eq!(fault(&[1, 0, 1]), (1, Fault::NotInView { variable: 1, in_view: 1 }));
        assert_eq!(fault(&[1, 3, 0, 0, 0, 0, 3]), (5, Fault::NotInView { variable: 3, in_view: 3 }));
        assert_eq!(fault(&[0, 5, 1, 0]), (1, Fault::NoFunction(1)));
        assert_eq!(fault(&[1, 5, 0, 0]), (1, Fault::Arguments { function: 0, given: 0, takes: 1 }));
    }

    #[test]
    fn the_deepest_nesting_needs_no_stack() {
        let mut script = vec![0];
        script.extend([4, 1].repeat(2047));
        script.push(1);
        assert_eq!(Outline::of(&script).unwrap().nesting, 2048);
        assert_eq!(fault(&[2; 4096]), (4096, Fault::Missing));
    }
}
