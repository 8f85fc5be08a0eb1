//! The tree of a text as numbers, three to a cell: tag, place, datum. A place is how many bytes stand before.

use crate::program::{Binary, Type, Unary};
use crate::syntax::{
    Branch, Constant, ConstantValue, Declaration, Expression, For, Group, Label, Name, Operator,
    Statement, Tree, Whole,
};

// The tags.

/// Ends a list or the declarations, and stands for a constant that is missing.
const FINISH: u32 = 0;
const NAME: u32 = 1;
const INT: u32 = 2;
const BOOL: u32 = 4;
const CASE: u32 = 6;
const DINT: u32 = 7;
const ELSE: u32 = 9;
const END_CASE: u32 = 11;
const END_IF: u32 = 13;
const EXIT: u32 = 18;
const FALSE: u32 = 19;
const FOR: u32 = 20;
const IF: u32 = 21;
const REPEAT: u32 = 27;
const THEN: u32 = 28;
const TRUE: u32 = 30;
const WHILE: u32 = 33;
const ASSIGN: u32 = 35;
const DOTS: u32 = 36;
const COLON: u32 = 40;
const OPEN: u32 = 43;
const PLUS: u32 = 45;
const MINUS: u32 = 46;
const UNARY: u32 = 53;
const BINARY: u32 = 54;
const WHOLE: u32 = 55;

fn unary_code(operator: Unary) -> u32 {
    match operator {
        Unary::Minus => 5,
        Unary::Plus => 0,
        Unary::Not => 6,
    }
}

fn binary_code(operator: Binary) -> u32 {
    match operator {
        Binary::Times => 7,
        Binary::Divide => 8,
        Binary::Mod => 9,
        Binary::Add => 10,
        Binary::Subtract => 11,
        Binary::Less => 12,
        Binary::Greater => 13,
        Binary::LessOrEqual => 14,
        Binary::GreaterOrEqual => 15,
        Binary::Equal => 16,
        Binary::NotEqual => 17,
        Binary::And => 18,
        Binary::Xor => 19,
        Binary::Or => 20,
    }
}

/// Cells, one behind the other.
struct Cells {
    numbers: Vec<u32>,
}

impl Cells {
    fn cell(&mut self, tag: u32, place: usize, datum: u32) {
        self.numbers.extend([tag, place as u32, datum]);
    }

    /// A cell that no place belongs to.
    fn mark(&mut self, tag: u32) {
        self.cell(tag, 0, 0);
    }

    fn name(&mut self, tag: u32, name: &Name) {
        self.cell(tag, name.place, name.spelling.len() as u32);
    }

    fn truth(&mut self, place: usize, value: bool) {
        self.cell(if value { TRUE } else { FALSE }, place, 0);
    }

    fn integer(&mut self, place: usize, magnitude: u32) {
        self.cell(INT, place, magnitude);
    }

    fn constant(&mut self, constant: &Constant) {
        match constant.value {
            ConstantValue::Truth(value) => self.truth(constant.place, value),
            ConstantValue::Integer {
                place,
                negative,
                magnitude,
            } => {
                let sign = if negative { MINUS } else { PLUS };
                self.cell(sign, constant.place, 0);
                self.integer(place, magnitude);
            }
        }
    }

    fn constant_if_any(&mut self, constant: &Option<Constant>) {
        match constant {
            Some(constant) => self.constant(constant),
            None => self.mark(FINISH),
        }
    }

    // Expressions, operators behind their operands.

    fn unary(&mut self, operator: &Operator<Unary>, operand: &Expression) {
        self.expression(operand);
        self.cell(UNARY, operator.place, unary_code(operator.meaning));
    }

    fn chain(&mut self, first: &Expression, rest: &[(Operator<Binary>, Expression)]) {
        self.expression(first);
        for (operator, right) in rest {
            self.expression(right);
            self.cell(BINARY, operator.place, binary_code(operator.meaning));
        }
    }

    fn expression(&mut self, expression: &Expression) {
        match expression {
            Expression::Name(name) => self.name(NAME, name),
            Expression::Integer { place, magnitude } => self.integer(*place, *magnitude),
            Expression::Truth { place, value } => self.truth(*place, *value),
            Expression::Parentheses { place, inside } => {
                self.expression(inside);
                self.cell(OPEN, *place, 0);
            }
            Expression::Unary(operator, operand) => self.unary(operator, operand),
            Expression::Chain(first, rest) => self.chain(first, rest),
        }
    }

    fn whole(&mut self, whole: &Whole) {
        self.expression(&whole.expression);
        self.cell(WHOLE, whole.place, 0);
    }

    // Statements, their tags first.

    fn branch(&mut self, branch: &Branch) {
        self.mark(THEN);
        self.whole(&branch.condition);
        self.list(&branch.list);
    }

    /// ELSE and its list, or what stands for none.
    fn otherwise(&mut self, otherwise: &Option<Vec<Statement>>, none: u32) {
        match otherwise {
            Some(list) => {
                self.mark(ELSE);
                self.list(list);
            }
            None => self.mark(none),
        }
    }

    fn if_statement(&mut self, branches: &[Branch], otherwise: &Option<Vec<Statement>>) {
        self.mark(IF);
        for branch in branches {
            self.branch(branch);
        }
        self.otherwise(otherwise, END_IF);
    }

    fn label(&mut self, label: &Label) {
        self.constant(&label.low);
        if let Some(high) = &label.high {
            self.mark(DOTS);
            self.constant(high);
        }
    }

    fn group(&mut self, group: &Group) {
        for label in &group.labels {
            self.label(label);
        }
        self.mark(COLON);
        self.list(&group.list);
    }

    fn case_statement(
        &mut self,
        selector: &Whole,
        groups: &[Group],
        otherwise: &Option<Vec<Statement>>,
    ) {
        self.mark(CASE);
        self.whole(selector);
        for group in groups {
            self.group(group);
        }
        self.otherwise(otherwise, END_CASE);
    }

    fn for_statement(&mut self, statement: &For) {
        self.name(FOR, &statement.name);
        self.whole(&statement.initial);
        self.whole(&statement.final_value);
        self.constant_if_any(&statement.step);
        self.list(&statement.body);
    }

    fn statement(&mut self, statement: &Statement) {
        match statement {
            Statement::Assignment { name, value } => {
                self.name(ASSIGN, name);
                self.whole(value);
            }
            Statement::If {
                branches,
                otherwise,
            } => self.if_statement(branches, otherwise),
            Statement::Case {
                selector,
                groups,
                otherwise,
            } => self.case_statement(selector, groups, otherwise),
            Statement::For(statement) => self.for_statement(statement),
            Statement::While { condition, body } => {
                self.mark(WHILE);
                self.whole(condition);
                self.list(body);
            }
            Statement::Repeat { body, condition } => {
                self.mark(REPEAT);
                self.list(body);
                self.whole(condition);
            }
            Statement::Exit { place } => self.cell(EXIT, *place, 0),
        }
    }

    fn list(&mut self, list: &[Statement]) {
        for statement in list {
            self.statement(statement);
        }
        self.mark(FINISH);
    }

    fn declaration(&mut self, declaration: &Declaration) {
        let kind = match declaration.kind {
            Type::Bool => BOOL,
            Type::Dint => DINT,
        };
        self.name(kind, &declaration.name);
        self.constant_if_any(&declaration.initial);
    }

    fn declarations(&mut self, declarations: &[Declaration]) {
        for declaration in declarations {
            self.declaration(declaration);
        }
        self.mark(FINISH);
    }
}

/// The numbers of a tree: declarations, then the statement list.
pub fn numbers(tree: &Tree) -> Vec<u32> {
    let mut cells = Cells {
        numbers: Vec::new(),
    };
    cells.declarations(&tree.declarations);
    cells.list(&tree.list);
    cells.numbers
}
