//! Programs as trees of expressions, read and written plainly.

#[derive(Clone, Debug, PartialEq, Eq)]
pub enum Expr {
    Var(usize),
    Leaf,
    Node(Box<Expr>, Box<Expr>),
    Parts(usize, Box<Expr>, Box<Expr>),
    Bind(Box<Expr>, Box<Expr>),
    Call(usize, Vec<Expr>),
}

#[derive(Clone, Debug, PartialEq, Eq)]
pub struct Fun {
    pub args: usize,
    pub body: Expr,
}

pub type Program = Vec<Fun>;

/// The program that the bytes are, if they are one.
pub fn read(bytes: &[u8]) -> Option<Program> {
    if bytes.len() > 4096 {
        return None;
    }
    let mut rest = bytes;
    let mut program = Vec::new();
    while !rest.is_empty() {
        let args = usize::from(byte(&mut rest)?);
        program.push(Fun { args, body: expr(&mut rest)? });
    }
    let fine = program.len() <= 64 && program.iter().all(|fun| fun.args <= 8 && fits(&program, fun.args, &fun.body));
    fine.then_some(program)
}

fn byte(rest: &mut &[u8]) -> Option<u8> {
    let (&first, others) = rest.split_first()?;
    *rest = others;
    Some(first)
}

fn expr(rest: &mut &[u8]) -> Option<Expr> {
    Some(match byte(rest)? {
        0 => Expr::Var(byte(rest)?.into()),
        1 => Expr::Leaf,
        2 => Expr::Node(expr(rest)?.into(), expr(rest)?.into()),
        3 => Expr::Parts(byte(rest)?.into(), expr(rest)?.into(), expr(rest)?.into()),
        4 => Expr::Bind(expr(rest)?.into(), expr(rest)?.into()),
        5 => {
            let function = byte(rest)?.into();
            let args = byte(rest)?;
            Expr::Call(function, (0..args).map(|_| expr(rest)).collect::<Option<_>>()?)
        }
        _ => return None,
    })
}

/// With so many variables in view, each is in view, and each call is of a function that takes as many.
fn fits(program: &[Fun], view: usize, e: &Expr) -> bool {
    match e {
        Expr::Var(i) => *i < view,
        Expr::Leaf => true,
        Expr::Node(a, b) => fits(program, view, a) && fits(program, view, b),
        Expr::Parts(i, a, b) => *i < view && fits(program, view, a) && fits(program, view + 2, b),
        Expr::Bind(a, b) => fits(program, view, a) && fits(program, view + 1, b),
        Expr::Call(f, es) => program.get(*f).is_some_and(|fun| fun.args == es.len()) && es.iter().all(|e| fits(program, view, e)),
    }
}

pub fn write(program: &[Fun]) -> Vec<u8> {
    let mut bytes = Vec::new();
    for fun in program {
        bytes.push(fun.args as u8);
        write_expr(&fun.body, &mut bytes);
    }
    bytes
}

fn write_expr(e: &Expr, bytes: &mut Vec<u8>) {
    match e {
        Expr::Var(i) => bytes.extend([0, *i as u8]),
        Expr::Leaf => bytes.push(1),
        Expr::Node(a, b) => {
            bytes.push(2);
            write_expr(a, bytes);
            write_expr(b, bytes);
        }
        Expr::Parts(i, a, b) => {
            bytes.extend([3, *i as u8]);
            write_expr(a, bytes);
            write_expr(b, bytes);
        }
        Expr::Bind(a, b) => {
            bytes.push(4);
            write_expr(a, bytes);
            write_expr(b, bytes);
        }
        Expr::Call(f, es) => {
            bytes.extend([5, *f as u8, es.len() as u8]);
            es.iter().for_each(|e| write_expr(e, bytes));
        }
    }
}
