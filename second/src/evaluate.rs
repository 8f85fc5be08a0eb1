//! What a text means: the checked program carried out statement by statement.

use crate::image::table_is_valid;
use crate::numbers::Outcome;
use crate::program::{passes, Binary, Branch, Expression, For, Group, Program, Statement, Unary};

/// How a text's run ends; the table is changed in place.
#[derive(Clone, Copy, Debug, PartialEq, Eq)]
pub struct Meaning {
    pub outcome: Outcome,
    pub ticks: u32,
}

/// What follows a statement that did not stop the run.
#[derive(Clone, Copy, Debug, PartialEq, Eq)]
enum Then {
    GoesOn,
    /// EXIT was met, and the innermost loop is to be left.
    Leaves,
}

struct Run<'t> {
    table: &'t mut [i32],
    budget: u32,
    ticks: u32,
}

/// An exact result, or RANGE.
fn in_range(exact: i64) -> Result<i32, Outcome> {
    i32::try_from(exact).map_err(|_| Outcome::Range)
}

/// Division truncates toward zero.
pub fn quotient(dividend: i32, divisor: i32) -> Result<i32, Outcome> {
    if divisor == 0 {
        return Err(Outcome::Divide);
    }
    in_range(i64::from(dividend) / i64::from(divisor))
}

/// The dividend less the truncated exact quotient times the divisor.
pub fn remainder(dividend: i32, divisor: i32) -> Result<i32, Outcome> {
    if divisor == 0 {
        return Err(Outcome::Divide);
    }
    let (dividend, divisor) = (i64::from(dividend), i64::from(divisor));
    in_range(dividend - dividend / divisor * divisor)
}

pub fn binary(operator: Binary, left: i32, right: i32) -> Result<i32, Outcome> {
    let (exact_left, exact_right) = (i64::from(left), i64::from(right));
    match operator {
        Binary::Times => in_range(exact_left * exact_right),
        Binary::Divide => quotient(left, right),
        Binary::Mod => remainder(left, right),
        Binary::Add => in_range(exact_left + exact_right),
        Binary::Subtract => in_range(exact_left - exact_right),
        Binary::Less => Ok(i32::from(left < right)),
        Binary::Greater => Ok(i32::from(left > right)),
        Binary::LessOrEqual => Ok(i32::from(left <= right)),
        Binary::GreaterOrEqual => Ok(i32::from(left >= right)),
        Binary::Equal => Ok(i32::from(left == right)),
        Binary::NotEqual => Ok(i32::from(left != right)),
        Binary::And => Ok(i32::from(left == 1 && right == 1)),
        Binary::Xor => Ok(i32::from(left != right)),
        Binary::Or => Ok(i32::from(left == 1 || right == 1)),
    }
}

pub fn unary(operator: Unary, operand: i32) -> Result<i32, Outcome> {
    match operator {
        Unary::Minus => in_range(-i64::from(operand)),
        Unary::Plus => Ok(operand),
        Unary::Not => Ok(i32::from(operand == 0)),
    }
}

impl Run<'_> {
    /// The run stops with SPENT just before tick budget + 1.
    fn tick(&mut self) -> Result<(), Outcome> {
        if self.ticks == self.budget {
            return Err(Outcome::Spent);
        }
        self.ticks += 1;
        Ok(())
    }

    /// Both operands are always evaluated, left first.
    fn value(&self, expression: &Expression) -> Result<i32, Outcome> {
        match expression {
            Expression::Constant(value) => Ok(*value),
            Expression::Variable(slot) => Ok(self.table[*slot]),
            Expression::Parentheses(inside) => self.value(inside),
            Expression::Unary(operator, operand) => unary(*operator, self.value(operand)?),
            Expression::Chain(first, rest) => {
                let mut left = self.value(first)?;
                for (operator, right) in rest {
                    left = binary(*operator, left, self.value(right)?)?;
                }
                Ok(left)
            }
        }
    }

    fn holds(&self, condition: &Expression) -> Result<bool, Outcome> {
        Ok(self.value(condition)? == 1)
    }

    fn assignment(&mut self, slot: usize, value: &Expression) -> Result<Then, Outcome> {
        self.tick()?;
        self.table[slot] = self.value(value)?;
        Ok(Then::GoesOn)
    }

    fn if_statement(
        &mut self,
        branches: &[Branch],
        otherwise: Option<&[Statement]>,
    ) -> Result<Then, Outcome> {
        self.tick()?;
        for branch in branches {
            if self.holds(&branch.condition)? {
                return self.list(&branch.list);
            }
        }
        self.list(otherwise.unwrap_or_default())
    }

    /// CASE runs the first group with a label that holds the selector.
    fn case_statement(
        &mut self,
        selector: &Expression,
        groups: &[Group],
        otherwise: &[Statement],
    ) -> Result<Then, Outcome> {
        self.tick()?;
        let selector = self.value(selector)?;
        for group in groups {
            let mut labels = group.labels.iter();
            if labels.any(|label| label.low <= selector && selector <= label.high) {
                return self.list(&group.list);
            }
        }
        self.list(otherwise)
    }

    /// Initial, then final, then the variable is set; the final value is held.
    fn for_statement(&mut self, statement: &For) -> Result<Then, Outcome> {
        self.tick()?;
        let initial = self.value(&statement.initial)?;
        let final_value = self.value(&statement.final_value)?;
        let (slot, step) = (statement.slot, statement.step);
        self.table[slot] = initial;
        if passes(i64::from(initial), final_value, step) {
            return Ok(Then::GoesOn);
        }
        loop {
            self.tick()?;
            if self.list(&statement.body)? == Then::Leaves {
                return Ok(Then::GoesOn);
            }
            let stepped = i64::from(self.table[slot]) + i64::from(step);
            if passes(stepped, final_value, step) {
                return Ok(Then::GoesOn);
            }
            // Between the variable and the final value, so always in range.
            self.table[slot] = in_range(stepped)?;
        }
    }

    fn while_statement(
        &mut self,
        condition: &Expression,
        body: &[Statement],
    ) -> Result<Then, Outcome> {
        loop {
            self.tick()?;
            if !self.holds(condition)? || self.list(body)? == Then::Leaves {
                return Ok(Then::GoesOn);
            }
        }
    }

    fn repeat_statement(
        &mut self,
        body: &[Statement],
        condition: &Expression,
    ) -> Result<Then, Outcome> {
        loop {
            self.tick()?;
            if self.list(body)? == Then::Leaves || self.holds(condition)? {
                return Ok(Then::GoesOn);
            }
        }
    }

    fn statement(&mut self, statement: &Statement) -> Result<Then, Outcome> {
        match statement {
            Statement::Assignment { slot, value } => self.assignment(*slot, value),
            Statement::If {
                branches,
                otherwise,
            } => self.if_statement(branches, otherwise.as_deref()),
            Statement::Case {
                selector,
                groups,
                otherwise,
            } => self.case_statement(selector, groups, otherwise),
            Statement::For(statement) => self.for_statement(statement),
            Statement::While { condition, body } => self.while_statement(condition, body),
            Statement::Repeat { body, condition } => self.repeat_statement(body, condition),
            Statement::Exit => {
                self.tick()?;
                Ok(Then::Leaves)
            }
        }
    }

    fn list(&mut self, list: &[Statement]) -> Result<Then, Outcome> {
        for statement in list {
            if self.statement(statement)? == Then::Leaves {
                return Ok(Then::Leaves);
            }
        }
        Ok(Then::GoesOn)
    }
}

/// Evaluates a program over a table within a budget.
pub fn evaluate(program: &Program, budget: u32, table: &mut [i32]) -> Meaning {
    if !table_is_valid(&program.variables, table) {
        return Meaning {
            outcome: Outcome::BadTable,
            ticks: 0,
        };
    }
    let mut run = Run {
        table,
        budget,
        ticks: 0,
    };
    let outcome = match run.list(&program.list) {
        Ok(_) => Outcome::Done,
        Err(stop) => stop,
    };
    Meaning {
        outcome,
        ticks: run.ticks,
    }
}
