//! The tree of a program, as `tree.py` writes it: a line for each variable, table, int function and thread.

use std::str::{FromStr, SplitAsciiWhitespace};

#[derive(Clone, Copy)]
pub enum Operator {
    Add, Sub, Mul, Div, Rem, Shl, Shr, Lt, Le, Gt, Ge, Eq, Ne, And, Xor, Or,
}

pub enum Expr {
    Number(i32),
    Local(usize),
    LocalAt { first: usize, length: usize, index: Box<Expr> },
    Variable(usize),
    VariableAt { first: usize, length: usize, index: Box<Expr> },
    TableAt { table: usize, index: Box<Expr> },
    Minus(Box<Expr>),
    Invert(Box<Expr>),
    Not(Box<Expr>),
    Binary { operator: Operator, left: Box<Expr>, right: Box<Expr> },
    Both(Box<Expr>, Box<Expr>),
    Either(Box<Expr>, Box<Expr>),
    Choose { test: Box<Expr>, yes: Box<Expr>, no: Box<Expr> },
    Call { function: usize, given: Vec<Expr> },
}

pub enum Stmt {
    SetLocal { slot: usize, value: Expr },
    SetVariable { copy: usize, value: Expr },
    SetAt { first: usize, length: usize, index: Expr, value: Expr },
    SetVariableAt { first: usize, length: usize, index: Expr, value: Expr },
    Clear { first: usize, length: usize },
    List(Vec<Stmt>),
    If { test: Expr, yes: Box<Stmt>, no: Box<Stmt> },
    /// A loop that runs in one go: no thread rests, forks or is aborted in it.
    Loop { bound: u32, test: Expr, body: Box<Stmt> },
    While { bound: Option<u32>, test: Expr, body: Box<Stmt> },
    Pause,
    Par(Vec<Branch>),
    Abort { weak: bool, immediate: bool, test: Expr, body: Box<Stmt> },
    Return(Expr),
}

/// A thread that is started, and the values that it is given.
pub struct Branch {
    pub thread: usize,
    pub given: Vec<Expr>,
}

/// Which values of a shared variable are combined.
pub enum Policy {
    All,
    New,
    Mod,
}

pub struct Variable {
    pub name: String,
    pub input: bool,
    pub output: bool,
    pub policy: Policy,
    pub combine: Option<usize>,
    pub start: i32,
}

/// How many words an int function has, and its body.
pub struct Function {
    pub words: usize,
    pub body: Stmt,
}

/// How many words a thread has, the variables that it uses, where the copy of each of them stands, and its body.
pub struct Code {
    pub words: usize,
    pub uses: Vec<usize>,
    pub copy_of: Vec<usize>,
    pub body: Stmt,
}

#[derive(Default)]
pub struct Program {
    pub variables: Vec<Variable>,
    pub tables: Vec<Vec<i32>>,
    pub functions: Vec<Function>,
    pub threads: Vec<Code>,
}

impl Program {
    pub fn read(text: &str) -> Program {
        let mut program = Program::default();
        for line in text.lines() {
            let mut words = Words(line.split_ascii_whitespace());
            match words.word() {
                "variable" => program.variables.push(words.variable()),
                "table" => program.tables.push(words.many(Words::number)),
                "function" => program.functions.push(Function { words: words.number(), body: words.stmt() }),
                _ => program.threads.push(words.code(program.variables.len())),
            }
        }
        program
    }
}

/// The words of a line that aren't read yet.
struct Words<'a>(SplitAsciiWhitespace<'a>);

impl<'a> Words<'a> {
    fn word(&mut self) -> &'a str {
        self.0.next().expect("a word")
    }

    fn number<N: FromStr>(&mut self) -> N {
        self.word().parse().ok().expect("a number")
    }

    /// A number, and so many parts.
    fn many<T>(&mut self, part: impl Fn(&mut Self) -> T) -> Vec<T> {
        (0..self.number()).map(|_| part(self)).collect()
    }

    fn variable(&mut self) -> Variable {
        let (name, kind) = (self.word().to_string(), self.word());
        let policy = match self.word() {
            "all" => Policy::All,
            "new" => Policy::New,
            _ => Policy::Mod,
        };
        let combine = self.word().parse().ok();
        Variable { name, input: kind == "input", output: kind == "output", policy, combine, start: self.number() }
    }

    fn code(&mut self, variables: usize) -> Code {
        let (words, uses): (_, Vec<usize>) = (self.number(), self.many(Words::number));
        let mut copy_of = vec![0; variables];
        uses.iter().enumerate().for_each(|(copy, variable)| copy_of[*variable] = copy);
        Code { words, uses, copy_of, body: self.stmt() }
    }

    fn boxed(&mut self) -> Box<Expr> {
        Box::new(self.expr())
    }

    fn expr(&mut self) -> Expr {
        match self.word() {
            "number" => Expr::Number(self.number()),
            "local" => Expr::Local(self.number()),
            "local_at" => Expr::LocalAt { first: self.number(), length: self.number(), index: self.boxed() },
            "variable" => Expr::Variable(self.number()),
            "variable_at" => Expr::VariableAt { first: self.number(), length: self.number(), index: self.boxed() },
            "table_at" => Expr::TableAt { table: self.number(), index: self.boxed() },
            "minus" => Expr::Minus(self.boxed()),
            "invert" => Expr::Invert(self.boxed()),
            "not" => Expr::Not(self.boxed()),
            "both" => Expr::Both(self.boxed(), self.boxed()),
            "either" => Expr::Either(self.boxed(), self.boxed()),
            "choose" => Expr::Choose { test: self.boxed(), yes: self.boxed(), no: self.boxed() },
            "call" => Expr::Call { function: self.number(), given: self.many(Words::expr) },
            kind => Expr::Binary { operator: operator(kind), left: self.boxed(), right: self.boxed() },
        }
    }

    fn branch(&mut self) -> Branch {
        assert_eq!(self.word(), "branch");
        Branch { thread: self.number(), given: self.many(Words::expr) }
    }

    fn stmt(&mut self) -> Stmt {
        match self.word() {
            "set_local" => Stmt::SetLocal { slot: self.number(), value: self.expr() },
            "set_variable" => Stmt::SetVariable { copy: self.number(), value: self.expr() },
            "set_at" => Stmt::SetAt { first: self.number(), length: self.number(), index: self.expr(), value: self.expr() },
            "set_variable_at" => {
                Stmt::SetVariableAt { first: self.number(), length: self.number(), index: self.expr(), value: self.expr() }
            }
            "clear" => Stmt::Clear { first: self.number(), length: self.number() },
            "list" => Stmt::List(self.many(Words::stmt)),
            "if" => Stmt::If { test: self.expr(), yes: Box::new(self.stmt()), no: Box::new(self.stmt()) },
            "loop" => Stmt::Loop { bound: self.number(), test: self.expr(), body: Box::new(self.stmt()) },
            "while" => Stmt::While { bound: self.word().parse().ok(), test: self.expr(), body: Box::new(self.stmt()) },
            "pause" => Stmt::Pause,
            "par" => Stmt::Par(self.many(Words::branch)),
            "abort" => {
                let (weak, immediate) = (self.word() == "1", self.word() == "1");
                Stmt::Abort { weak, immediate, test: self.expr(), body: Box::new(self.stmt()) }
            }
            "return" => Stmt::Return(self.expr()),
            kind => panic!("no statement: {kind}"),
        }
    }
}

fn operator(kind: &str) -> Operator {
    match kind {
        "add" => Operator::Add,
        "sub" => Operator::Sub,
        "mul" => Operator::Mul,
        "div" => Operator::Div,
        "rem" => Operator::Rem,
        "shl" => Operator::Shl,
        "shr" => Operator::Shr,
        "lt" => Operator::Lt,
        "le" => Operator::Le,
        "gt" => Operator::Gt,
        "ge" => Operator::Ge,
        "eq" => Operator::Eq,
        "ne" => Operator::Ne,
        "and" => Operator::And,
        "xor" => Operator::Xor,
        "or" => Operator::Or,
        _ => panic!("no expression: {kind}"),
    }
}
