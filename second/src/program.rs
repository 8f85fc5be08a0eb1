//! The checked program: what a good text says, with variables as slots.

#[derive(Clone, Copy, Debug, PartialEq, Eq)]
pub enum Type {
    Bool,
    Dint,
}

impl Type {
    /// Whether a table entry of this type may have the value.
    pub fn holds(self, value: i32) -> bool {
        self == Type::Dint || value == 0 || value == 1
    }
}

#[derive(Clone, Copy, Debug, PartialEq, Eq)]
pub enum Unary {
    Minus,
    Plus,
    Not,
}

#[derive(Clone, Copy, Debug, PartialEq, Eq)]
pub enum Binary {
    Times,
    Divide,
    Mod,
    Add,
    Subtract,
    Less,
    Greater,
    LessOrEqual,
    GreaterOrEqual,
    Equal,
    NotEqual,
    And,
    Xor,
    Or,
}

#[derive(Clone, Copy, Debug, PartialEq, Eq)]
pub struct Variable {
    pub kind: Type,
    pub initial: i32,
}

#[derive(Clone, Debug, PartialEq, Eq)]
pub enum Expression {
    Constant(i32),
    Variable(usize),
    /// Kept, because a FOR bound in parentheses is not one integer with an optional sign.
    Parentheses(Box<Expression>),
    Unary(Unary, Box<Expression>),
    /// Operators of one level, grouped from the left.
    Chain(Box<Expression>, Vec<(Binary, Expression)>),
}

#[derive(Clone, Debug, PartialEq, Eq)]
pub struct Branch {
    pub condition: Expression,
    pub list: Vec<Statement>,
}

#[derive(Clone, Copy, Debug, PartialEq, Eq)]
pub struct Label {
    pub low: i32,
    pub high: i32,
}

#[derive(Clone, Debug, PartialEq, Eq)]
pub struct Group {
    pub labels: Vec<Label>,
    pub list: Vec<Statement>,
}

#[derive(Clone, Debug, PartialEq, Eq)]
pub struct For {
    pub slot: usize,
    pub initial: Expression,
    pub final_value: Expression,
    pub step: i32,
    pub body: Vec<Statement>,
}

/// A statement; a lone `;` is none.
#[derive(Clone, Debug, PartialEq, Eq)]
pub enum Statement {
    Assignment {
        slot: usize,
        value: Expression,
    },
    If {
        branches: Vec<Branch>,
        otherwise: Option<Vec<Statement>>,
    },
    Case {
        selector: Expression,
        groups: Vec<Group>,
        otherwise: Vec<Statement>,
    },
    For(For),
    While {
        condition: Expression,
        body: Vec<Statement>,
    },
    Repeat {
        body: Vec<Statement>,
        condition: Expression,
    },
    Exit,
}

#[derive(Clone, Debug, PartialEq, Eq)]
pub struct Program {
    pub variables: Vec<Variable>,
    pub list: Vec<Statement>,
}

/// A value passes the final value: above it for a positive step, below for a negative.
pub fn passes(value: i64, final_value: i32, step: i32) -> bool {
    if step > 0 {
        value > i64::from(final_value)
    } else {
        value < i64::from(final_value)
    }
}
