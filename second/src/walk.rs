//! The walk over the tree: declarations, then statements, parts before the whole, left to right.

use crate::figures::height;
use crate::numbers::{refuse, Fault, Refusal, STACK_LIMIT, VARIABLE_LIMIT};
use crate::program::{
    Binary, Branch, Expression, For, Group, Label, Program, Statement, Type, Unary, Variable,
};
use crate::syntax::{self, Constant, ConstantValue, Declaration, Name, Operator, Tree, Whole};

/// An expression with its type.
type Typed = (Expression, Type);

struct Walk {
    /// The declared names in capitals, in order.
    names: Vec<String>,
    variables: Vec<Variable>,
    /// The variables of the enclosing FORs.
    enclosing_fors: Vec<usize>,
    enclosing_loops: usize,
}

/// The type and value of a constant, with the exact case of number 4.
fn constant(constant: &Constant) -> Result<(Type, i32), Refusal> {
    match constant.value {
        ConstantValue::Truth(value) => Ok((Type::Bool, i32::from(value))),
        ConstantValue::Integer {
            place,
            negative,
            magnitude,
        } => {
            let exact = if negative {
                -i64::from(magnitude)
            } else {
                i64::from(magnitude)
            };
            match i32::try_from(exact) {
                Ok(value) => Ok((Type::Dint, value)),
                Err(_) => refuse(Fault::BadInteger, place),
            }
        }
    }
}

/// Number 8 unless the types are the same.
fn same_type(found: Type, asked: Type, place: usize) -> Result<(), Refusal> {
    if found == asked {
        Ok(())
    } else {
        refuse(Fault::WrongType, place)
    }
}

/// An integer outside a constant, where 2147483648 is always number 4.
fn integer(magnitude: u32, place: usize) -> Result<i32, Refusal> {
    match i32::try_from(magnitude) {
        Ok(value) => Ok(value),
        Err(_) => refuse(Fault::BadInteger, place),
    }
}

/// The type of an operator's result, if it takes an operand of this type.
fn unary_result(operator: Unary, operand: Type) -> Option<Type> {
    let asked = match operator {
        Unary::Minus | Unary::Plus => Type::Dint,
        Unary::Not => Type::Bool,
    };
    (operand == asked).then_some(asked)
}

/// The type of an operator's result, if it takes operands of these types.
fn binary_result(operator: Binary, left: Type, right: Type) -> Option<Type> {
    use Binary::*;
    if left != right {
        return None;
    }
    match operator {
        Times | Divide | Mod | Add | Subtract => (left == Type::Dint).then_some(Type::Dint),
        Less | Greater | LessOrEqual | GreaterOrEqual => (left == Type::Dint).then_some(Type::Bool),
        Equal | NotEqual => Some(Type::Bool),
        And | Xor | Or => (left == Type::Bool).then_some(Type::Bool),
    }
}

/// Number 10 for height: held values below the expression count too.
fn height_within(whole: &Expression, held: usize, place: usize) -> Result<(), Refusal> {
    if height(whole) + held <= STACK_LIMIT {
        Ok(())
    } else {
        refuse(Fault::NestedTooDeep, place)
    }
}

fn label(label: &syntax::Label) -> Result<Label, Refusal> {
    let place = label.low.place;
    let (low_type, low) = constant(&label.low)?;
    let (high_type, high) = match &label.high {
        Some(high) => constant(high)?,
        None => (low_type, low),
    };
    same_type(low_type, Type::Dint, place)?;
    same_type(high_type, Type::Dint, place)?;
    if low > high {
        return refuse(Fault::LowAboveHigh, place);
    }
    Ok(Label { low, high })
}

/// The step of a FOR; BY missing is 1.
fn step(by: &Option<Constant>) -> Result<i32, Refusal> {
    let Some(by) = by else {
        return Ok(1);
    };
    let (kind, value) = constant(by)?;
    same_type(kind, Type::Dint, by.place)?;
    if value == 0 {
        return refuse(Fault::StepZero, by.place);
    }
    Ok(value)
}

impl Walk {
    fn slot(&self, name: &Name) -> Option<usize> {
        self.names.iter().position(|known| *known == name.spelling)
    }

    fn known_slot(&self, name: &Name) -> Result<usize, Refusal> {
        match self.slot(name) {
            Some(slot) => Ok(slot),
            None => refuse(Fault::UnknownName, name.place),
        }
    }

    /// The slot of a variable that is assigned or becomes a FOR variable: 7 before 11.
    fn changed_slot(&self, name: &Name) -> Result<usize, Refusal> {
        let slot = self.known_slot(name)?;
        if self.enclosing_fors.contains(&slot) {
            return refuse(Fault::ForVariableChanged, name.place);
        }
        Ok(slot)
    }

    fn kind_of(&self, slot: usize) -> Type {
        self.variables[slot].kind
    }

    /// At the name 6, then 9; the constant's 4; 8 at the name.
    fn declaration(&mut self, declaration: &Declaration) -> Result<(), Refusal> {
        let Declaration {
            name,
            kind,
            initial,
        } = declaration;
        if self.slot(name).is_some() {
            return refuse(Fault::DeclaredTwice, name.place);
        }
        if self.variables.len() == VARIABLE_LIMIT {
            return refuse(Fault::TooManyVariables, name.place);
        }
        let (initial_type, value) = match initial {
            Some(initial) => constant(initial)?,
            None => (*kind, 0),
        };
        same_type(initial_type, *kind, name.place)?;
        self.names.push(name.spelling.clone());
        self.variables.push(Variable {
            kind: *kind,
            initial: value,
        });
        Ok(())
    }

    // Expressions.

    fn unary(
        &self,
        operator: &Operator<Unary>,
        operand: &syntax::Expression,
    ) -> Result<Typed, Refusal> {
        let (operand, operand_type) = self.expression(operand)?;
        match unary_result(operator.meaning, operand_type) {
            Some(kind) => Ok((Expression::Unary(operator.meaning, Box::new(operand)), kind)),
            None => refuse(Fault::WrongType, operator.place),
        }
    }

    fn chain(
        &self,
        first: &syntax::Expression,
        rest: &[(Operator<Binary>, syntax::Expression)],
    ) -> Result<Typed, Refusal> {
        let (first, mut kind) = self.expression(first)?;
        let mut checked = Vec::new();
        for (operator, right) in rest {
            let (right, right_type) = self.expression(right)?;
            kind = match binary_result(operator.meaning, kind, right_type) {
                Some(kind) => kind,
                None => return refuse(Fault::WrongType, operator.place),
            };
            checked.push((operator.meaning, right));
        }
        Ok((Expression::Chain(Box::new(first), checked), kind))
    }

    fn expression(&self, expression: &syntax::Expression) -> Result<Typed, Refusal> {
        match expression {
            syntax::Expression::Name(name) => {
                let slot = self.known_slot(name)?;
                Ok((Expression::Variable(slot), self.kind_of(slot)))
            }
            syntax::Expression::Integer { place, magnitude } => {
                let value = integer(*magnitude, *place)?;
                Ok((Expression::Constant(value), Type::Dint))
            }
            syntax::Expression::Truth { value, .. } => {
                Ok((Expression::Constant(i32::from(*value)), Type::Bool))
            }
            syntax::Expression::Parentheses { inside, .. } => {
                let (inside, kind) = self.expression(inside)?;
                Ok((Expression::Parentheses(Box::new(inside)), kind))
            }
            syntax::Expression::Unary(operator, operand) => self.unary(operator, operand),
            syntax::Expression::Chain(first, rest) => self.chain(first, rest),
        }
    }

    /// A condition, selector or FOR bound: its own faults, its 8, its height.
    fn whole(&self, whole: &Whole, asked: Type, held: usize) -> Result<Expression, Refusal> {
        let (expression, found) = self.expression(&whole.expression)?;
        same_type(found, asked, whole.place)?;
        height_within(&expression, held, whole.place)?;
        Ok(expression)
    }

    // Statements.

    /// 7 and 11 at the name, the expression's own faults, 8 at the name, height.
    fn assignment(&self, name: &Name, value: &Whole) -> Result<Statement, Refusal> {
        let slot = self.changed_slot(name)?;
        let (expression, found) = self.expression(&value.expression)?;
        same_type(found, self.kind_of(slot), name.place)?;
        height_within(&expression, 0, value.place)?;
        Ok(Statement::Assignment {
            slot,
            value: expression,
        })
    }

    fn branch(&mut self, branch: &syntax::Branch) -> Result<Branch, Refusal> {
        let condition = self.whole(&branch.condition, Type::Bool, 0)?;
        let list = self.list(&branch.list)?;
        Ok(Branch { condition, list })
    }

    fn group(&mut self, group: &syntax::Group) -> Result<Group, Refusal> {
        let labels = group.labels.iter().map(label).collect::<Result<_, _>>()?;
        let list = self.list(&group.list)?;
        Ok(Group { labels, list })
    }

    fn if_statement(
        &mut self,
        branches: &[syntax::Branch],
        otherwise: &Option<Vec<syntax::Statement>>,
    ) -> Result<Statement, Refusal> {
        let mut checked = Vec::new();
        for branch in branches {
            checked.push(self.branch(branch)?);
        }
        let otherwise = match otherwise {
            Some(list) => Some(self.list(list)?),
            None => None,
        };
        Ok(Statement::If {
            branches: checked,
            otherwise,
        })
    }

    fn case_statement(
        &mut self,
        selector: &Whole,
        groups: &[syntax::Group],
        otherwise: &Option<Vec<syntax::Statement>>,
    ) -> Result<Statement, Refusal> {
        let selector = self.whole(selector, Type::Dint, 0)?;
        let mut checked = Vec::new();
        for group in groups {
            checked.push(self.group(group)?);
        }
        Ok(Statement::Case {
            selector,
            groups: checked,
            otherwise: self.list(otherwise.as_deref().unwrap_or_default())?,
        })
    }

    /// 7, 11 and 8 at the name, initial, final with the initial value below it, BY, body.
    fn for_statement(&mut self, statement: &syntax::For) -> Result<Statement, Refusal> {
        let name = &statement.name;
        let slot = self.changed_slot(name)?;
        same_type(self.kind_of(slot), Type::Dint, name.place)?;
        let initial = self.whole(&statement.initial, Type::Dint, 0)?;
        let final_value = self.whole(&statement.final_value, Type::Dint, 1)?;
        let step = step(&statement.step)?;
        self.enclosing_fors.push(slot);
        let body = self.loop_body(&statement.body)?;
        self.enclosing_fors.pop();
        Ok(Statement::For(For {
            slot,
            initial,
            final_value,
            step,
            body,
        }))
    }

    fn loop_body(&mut self, list: &[syntax::Statement]) -> Result<Vec<Statement>, Refusal> {
        self.enclosing_loops += 1;
        let body = self.list(list)?;
        self.enclosing_loops -= 1;
        Ok(body)
    }

    fn while_statement(
        &mut self,
        condition: &Whole,
        body: &[syntax::Statement],
    ) -> Result<Statement, Refusal> {
        let condition = self.whole(condition, Type::Bool, 0)?;
        let body = self.loop_body(body)?;
        Ok(Statement::While { condition, body })
    }

    fn repeat_statement(
        &mut self,
        body: &[syntax::Statement],
        condition: &Whole,
    ) -> Result<Statement, Refusal> {
        let body = self.loop_body(body)?;
        let condition = self.whole(condition, Type::Bool, 0)?;
        Ok(Statement::Repeat { body, condition })
    }

    fn exit(&self, place: usize) -> Result<Statement, Refusal> {
        if self.enclosing_loops == 0 {
            return refuse(Fault::ExitOutsideLoop, place);
        }
        Ok(Statement::Exit)
    }

    fn statement(&mut self, statement: &syntax::Statement) -> Result<Statement, Refusal> {
        match statement {
            syntax::Statement::Assignment { name, value } => self.assignment(name, value),
            syntax::Statement::If {
                branches,
                otherwise,
            } => self.if_statement(branches, otherwise),
            syntax::Statement::Case {
                selector,
                groups,
                otherwise,
            } => self.case_statement(selector, groups, otherwise),
            syntax::Statement::For(statement) => self.for_statement(statement),
            syntax::Statement::While { condition, body } => self.while_statement(condition, body),
            syntax::Statement::Repeat { body, condition } => self.repeat_statement(body, condition),
            syntax::Statement::Exit { place } => self.exit(*place),
        }
    }

    fn list(&mut self, list: &[syntax::Statement]) -> Result<Vec<Statement>, Refusal> {
        let mut checked = Vec::new();
        for statement in list {
            checked.push(self.statement(statement)?);
        }
        Ok(checked)
    }
}

/// The checked program of a tree, or the walk's first fault.
pub fn walk(tree: &Tree) -> Result<Program, Refusal> {
    let mut walk = Walk {
        names: Vec::new(),
        variables: Vec::new(),
        enclosing_fors: Vec::new(),
        enclosing_loops: 0,
    };
    for declaration in &tree.declarations {
        walk.declaration(declaration)?;
    }
    let list = walk.list(&tree.list)?;
    Ok(Program {
        variables: walk.variables,
        list,
    })
}
