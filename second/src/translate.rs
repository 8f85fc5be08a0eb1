//! The translation of a checked program into code.

use crate::codes::*;
use crate::program::{Binary, Branch, Expression, For, Group, Program, Statement, Unary};

/// The two bytes of a target that is written later.
struct Hole(usize);

struct Translation {
    code: Vec<u8>,
    /// The number of enclosing FORs.
    level: u8,
    /// Per enclosing loop, its EXITs that wait for the loop's end.
    exits: Vec<Vec<Hole>>,
}

fn binary_code(operator: Binary) -> u8 {
    match operator {
        Binary::Times => MUL,
        Binary::Divide => DIV,
        Binary::Mod => MOD,
        Binary::Add => ADD,
        Binary::Subtract => SUB,
        Binary::Less => LT,
        Binary::Greater => GT,
        Binary::LessOrEqual => LE,
        Binary::GreaterOrEqual => GE,
        Binary::Equal => EQ,
        Binary::NotEqual => NE,
        Binary::And => AND,
        Binary::Xor => XOR,
        Binary::Or => OR,
    }
}

/// A target's two bytes. Code too long for them is over 8,192 bytes, and refused.
fn target_bytes(target: usize) -> [u8; 2] {
    let bytes = target.to_le_bytes();
    [bytes[0], bytes[1]]
}

impl Translation {
    fn here(&self) -> usize {
        self.code.len()
    }

    fn emit(&mut self, code: u8) {
        self.code.push(code);
    }

    fn emit_with_byte(&mut self, code: u8, operand: u8) {
        self.code.extend([code, operand]);
    }

    /// A slot's byte; there are at most 64.
    fn emit_with_slot(&mut self, code: u8, slot: usize) {
        self.emit_with_byte(code, slot as u8);
    }

    fn emit_value(&mut self, value: i32) {
        self.code.extend(value.to_le_bytes());
    }

    fn emit_target(&mut self, target: usize) {
        self.code.extend(target_bytes(target));
    }

    fn emit_hole(&mut self) -> Hole {
        let hole = Hole(self.here());
        self.emit_target(0);
        hole
    }

    fn jump_to(&mut self, code: u8, target: usize) {
        self.emit(code);
        self.emit_target(target);
    }

    fn jump_ahead(&mut self, code: u8) -> Hole {
        self.emit(code);
        self.emit_hole()
    }

    /// Makes the jump with this hole land here.
    fn land(&mut self, hole: Hole) {
        let target = target_bytes(self.here());
        self.code[hole.0..hole.0 + 2].copy_from_slice(&target);
    }

    fn land_all(&mut self, holes: Vec<Hole>) {
        for hole in holes {
            self.land(hole);
        }
    }

    // Expressions: operands left to right, then the operator.

    fn expression(&mut self, expression: &Expression) {
        match expression {
            Expression::Constant(value) => {
                self.emit(CONST);
                self.emit_value(*value);
            }
            Expression::Variable(slot) => self.emit_with_slot(LOAD, *slot),
            Expression::Parentheses(inside) => self.expression(inside),
            Expression::Unary(operator, operand) => {
                self.expression(operand);
                match operator {
                    Unary::Minus => self.emit(NEG),
                    Unary::Plus => {}
                    Unary::Not => self.emit(NOT),
                }
            }
            Expression::Chain(first, rest) => {
                self.expression(first);
                for (operator, right) in rest {
                    self.expression(right);
                    self.emit(binary_code(*operator));
                }
            }
        }
    }

    // Statements.

    /// T, expression, STORE.
    fn assignment(&mut self, slot: usize, value: &Expression) {
        self.emit(TICK);
        self.expression(value);
        self.emit_with_slot(STORE, slot);
    }

    /// T; per branch condition, 16 to the next branch, list; JUMP to end after every list that
    /// another branch or ELSE follows.
    fn if_statement(&mut self, branches: &[Branch], otherwise: Option<&[Statement]>) {
        self.emit(TICK);
        let mut to_end = Vec::new();
        for (index, branch) in branches.iter().enumerate() {
            self.expression(&branch.condition);
            let to_next_branch = self.jump_ahead(JUMP_IF_ZERO);
            self.list(&branch.list);
            if index + 1 < branches.len() || otherwise.is_some() {
                to_end.push(self.jump_ahead(JUMP));
            }
            self.land(to_next_branch);
        }
        if let Some(list) = otherwise {
            self.list(list);
        }
        self.land_all(to_end);
    }

    /// Each label as SPAN and 18 to the body, then JUMP to the next group; body DROP, list, JUMP
    /// to end.
    fn group(&mut self, group: &Group) -> Hole {
        let mut to_body = Vec::new();
        for label in &group.labels {
            self.emit(SPAN);
            self.emit_value(label.low);
            self.emit_value(label.high);
            to_body.push(self.jump_ahead(JUMP_IF_NOT_ZERO));
        }
        let to_next_group = self.jump_ahead(JUMP);
        self.land_all(to_body);
        self.emit(DROP);
        self.list(&group.list);
        let to_end = self.jump_ahead(JUMP);
        self.land(to_next_group);
        to_end
    }

    /// T, selector; the groups; last DROP and the ELSE list.
    fn case_statement(&mut self, selector: &Expression, groups: &[Group], otherwise: &[Statement]) {
        self.emit(TICK);
        self.expression(selector);
        let mut to_end = Vec::new();
        for group in groups {
            to_end.push(self.group(group));
        }
        self.emit(DROP);
        self.list(otherwise);
        self.land_all(to_end);
    }

    /// A loop whose EXITs jump to its end.
    fn with_exits(&mut self, rest_of_loop: impl FnOnce(&mut Self)) {
        self.exits.push(Vec::new());
        rest_of_loop(self);
        let exits = self.exits.pop().unwrap_or_default();
        self.land_all(exits);
    }

    /// FIRST or NEXT up to its target.
    fn emit_for(&mut self, code: u8, slot: usize, step: i32) {
        self.emit_with_byte(code, self.level);
        self.code.push(slot as u8);
        self.emit_value(step);
    }

    /// T, initial, final, HOLD, STORE, FIRST to end; L: T, list, NEXT to L.
    fn for_statement(&mut self, statement: &For) {
        let For {
            slot,
            initial,
            final_value,
            step,
            body,
        } = statement;
        self.emit(TICK);
        self.expression(initial);
        self.expression(final_value);
        self.emit_with_byte(HOLD, self.level);
        self.emit_with_slot(STORE, *slot);
        self.emit_for(FIRST, *slot, *step);
        let to_end = self.emit_hole();
        self.with_exits(|this| {
            let start = this.here();
            this.emit(TICK);
            this.level += 1;
            this.list(body);
            this.level -= 1;
            this.emit_for(NEXT, *slot, *step);
            this.emit_target(start);
        });
        self.land(to_end);
    }

    /// L: T, condition, 16 to end, list, JUMP L.
    fn while_statement(&mut self, condition: &Expression, body: &[Statement]) {
        self.with_exits(|this| {
            let start = this.here();
            this.emit(TICK);
            this.expression(condition);
            let to_end = this.jump_ahead(JUMP_IF_ZERO);
            this.list(body);
            this.jump_to(JUMP, start);
            this.land(to_end);
        });
    }

    /// L: T, list, condition, 16 to L.
    fn repeat_statement(&mut self, body: &[Statement], condition: &Expression) {
        self.with_exits(|this| {
            let start = this.here();
            this.emit(TICK);
            this.list(body);
            this.expression(condition);
            this.jump_to(JUMP_IF_ZERO, start);
        });
    }

    /// T, JUMP to the loop's end. Inside a CASE the selector is already dropped.
    fn exit(&mut self) {
        self.emit(TICK);
        let hole = self.jump_ahead(JUMP);
        if let Some(innermost) = self.exits.last_mut() {
            innermost.push(hole);
        }
    }

    fn statement(&mut self, statement: &Statement) {
        match statement {
            Statement::Assignment { slot, value } => self.assignment(*slot, value),
            Statement::If {
                branches,
                otherwise,
            } => self.if_statement(branches, otherwise.as_deref()),
            Statement::Case {
                selector,
                groups,
                otherwise,
            } => self.case_statement(selector, groups, otherwise),
            Statement::For(statement) => self.for_statement(statement),
            Statement::While { condition, body } => self.while_statement(condition, body),
            Statement::Repeat { body, condition } => self.repeat_statement(body, condition),
            Statement::Exit => self.exit(),
        }
    }

    fn list(&mut self, list: &[Statement]) {
        for statement in list {
            self.statement(statement);
        }
    }
}

/// The code of a program, HALT last; over 8,192 bytes only its length is of use.
pub fn translate(program: &Program) -> Vec<u8> {
    let mut translation = Translation {
        code: Vec::new(),
        level: 0,
        exits: Vec::new(),
    };
    translation.list(&program.list);
    translation.emit(HALT);
    translation.code
}
