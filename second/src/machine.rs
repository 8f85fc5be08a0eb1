//! The machine: the codes carried out one by one over a table.

use crate::codes::*;
use crate::image::{self, table_is_valid, Image};
use crate::numbers::{Outcome, FOR_LIMIT, STACK_LIMIT};
use crate::program::{passes, Type, Variable};

/// The machine's own state.
#[derive(Clone, Copy, Debug, PartialEq, Eq)]
pub struct Machine {
    stack: [i32; STACK_LIMIT],
    /// How many values are on the stack.
    pub stack_height: usize,
    held_finals: [i32; FOR_LIMIT],
    pub offset: usize,
    pub ticks: u32,
    pub instructions: u64,
}

/// What a run lends to the machine.
pub struct Lent<'l> {
    pub variables: &'l [Variable],
    pub code: &'l [u8],
    pub table: &'l mut [i32],
    pub budget: u32,
}

/// What a run reports.
#[derive(Clone, Copy, Debug, PartialEq, Eq)]
pub struct Report {
    pub outcome: Outcome,
    pub ticks: u32,
    pub instructions: u64,
    pub offset: usize,
}

/// The operands of FIRST and NEXT.
struct ForOperands {
    final_value: i32,
    slot: usize,
    step: i32,
    target: usize,
}

fn value_at(operands: &[u8], at: usize) -> i32 {
    i32::from_le_bytes([
        operands[at],
        operands[at + 1],
        operands[at + 2],
        operands[at + 3],
    ])
}

fn target_at(operands: &[u8], at: usize) -> usize {
    usize::from(u16::from_le_bytes([operands[at], operands[at + 1]]))
}

/// A byte that must be below a number: a slot or a level.
fn below(byte: u8, limit: usize) -> Result<usize, Outcome> {
    let index = usize::from(byte);
    if index < limit {
        Ok(index)
    } else {
        Err(Outcome::BadCode)
    }
}

/// Logic takes only 0 and 1.
fn truth(value: i32) -> Result<bool, Outcome> {
    match value {
        0 => Ok(false),
        1 => Ok(true),
        _ => Err(Outcome::BadCode),
    }
}

fn or_range(exact: Option<i32>) -> Result<i32, Outcome> {
    exact.ok_or(Outcome::Range)
}

/// MUL to OR.
fn binary(code: u8, left: i32, right: i32) -> Result<i32, Outcome> {
    match code {
        DIV | MOD if right == 0 => Err(Outcome::Divide),
        MUL => or_range(left.checked_mul(right)),
        DIV => or_range(left.checked_div(right)),
        // The lowest value MOD -1 is 0, though the quotient is out of range.
        MOD => Ok(left.wrapping_rem(right)),
        ADD => or_range(left.checked_add(right)),
        SUB => or_range(left.checked_sub(right)),
        LT => Ok(i32::from(left < right)),
        GT => Ok(i32::from(left > right)),
        LE => Ok(i32::from(left <= right)),
        GE => Ok(i32::from(left >= right)),
        EQ => Ok(i32::from(left == right)),
        NE => Ok(i32::from(left != right)),
        AND => Ok(i32::from(truth(left)? & truth(right)?)),
        XOR => Ok(i32::from(truth(left)? ^ truth(right)?)),
        OR => Ok(i32::from(truth(left)? | truth(right)?)),
        _ => Err(Outcome::BadCode),
    }
}

impl Machine {
    /// The starting state: an empty stack, held final values 0.
    pub fn start() -> Machine {
        Machine {
            stack: [0; STACK_LIMIT],
            stack_height: 0,
            held_finals: [0; FOR_LIMIT],
            offset: 0,
            ticks: 0,
            instructions: 0,
        }
    }

    fn push(&mut self, value: i32) -> Result<(), Outcome> {
        if self.stack_height == STACK_LIMIT {
            return Err(Outcome::BadCode);
        }
        self.stack[self.stack_height] = value;
        self.stack_height += 1;
        Ok(())
    }

    fn pop(&mut self) -> Result<i32, Outcome> {
        if self.stack_height == 0 {
            return Err(Outcome::BadCode);
        }
        self.stack_height -= 1;
        Ok(self.stack[self.stack_height])
    }

    /// Where a jump taken at this offset lands: back, and to itself, only to a TICK.
    fn landing(&self, code: &[u8], target: usize) -> Result<usize, Outcome> {
        if target <= self.offset && code[target] != TICK {
            return Err(Outcome::BadCode);
        }
        Ok(target)
    }

    fn for_operands(&self, operands: &[u8], lent: &Lent) -> Result<ForOperands, Outcome> {
        let level = below(operands[0], FOR_LIMIT)?;
        let slot = below(operands[1], lent.variables.len())?;
        let step = value_at(operands, 2);
        if step == 0 || lent.variables[slot].kind == Type::Bool {
            return Err(Outcome::BadCode);
        }
        Ok(ForOperands {
            final_value: self.held_finals[level],
            slot,
            step,
            target: target_at(operands, 6),
        })
    }

    fn tick(&mut self, budget: u32) -> Result<(), Outcome> {
        if self.ticks == budget {
            return Err(Outcome::Spent);
        }
        self.ticks += 1;
        Ok(())
    }

    fn store(&mut self, slot: u8, lent: &mut Lent) -> Result<(), Outcome> {
        let slot = below(slot, lent.variables.len())?;
        let value = self.pop()?;
        if !lent.variables[slot].kind.holds(value) {
            return Err(Outcome::BadCode);
        }
        lent.table[slot] = value;
        Ok(())
    }

    fn negate(&mut self) -> Result<(), Outcome> {
        let value = self.pop()?;
        self.push(or_range(value.checked_neg())?)
    }

    fn negate_truth(&mut self) -> Result<(), Outcome> {
        let value = self.pop()?;
        self.push(i32::from(!truth(value)?))
    }

    fn combine(&mut self, code: u8) -> Result<(), Outcome> {
        let right = self.pop()?;
        let left = self.pop()?;
        self.push(binary(code, left, right)?)
    }

    /// Pushes whether the top, which stays, is within.
    fn span(&mut self, low: i32, high: i32) -> Result<(), Outcome> {
        let top = self.pop()?;
        self.push(top)?;
        self.push(i32::from(low <= top && top <= high))
    }

    fn hold(&mut self, level: u8) -> Result<(), Outcome> {
        let level = below(level, FOR_LIMIT)?;
        self.held_finals[level] = self.pop()?;
        Ok(())
    }

    /// Jumps if the variable passes the held final value.
    fn first(&self, operands: &[u8], lent: &Lent) -> Result<Option<usize>, Outcome> {
        let of = self.for_operands(operands, lent)?;
        let value = i64::from(lent.table[of.slot]);
        if !passes(value, of.final_value, of.step) {
            return Ok(None);
        }
        self.landing(lent.code, of.target).map(Some)
    }

    /// Steps the variable and jumps if the stepped value doesn't pass.
    fn next(&self, operands: &[u8], lent: &mut Lent) -> Result<Option<usize>, Outcome> {
        let of = self.for_operands(operands, lent)?;
        let stepped = i64::from(lent.table[of.slot]) + i64::from(of.step);
        if passes(stepped, of.final_value, of.step) {
            return Ok(None);
        }
        let landing = self.landing(lent.code, of.target)?;
        // Between the variable and the final value, so in range.
        lent.table[of.slot] = stepped as i32;
        Ok(Some(landing))
    }

    /// The machine after the instruction at its offset, or the outcome that stops the run there.
    ///
    /// A stopping instruction gives no next machine and leaves the table.
    pub fn step(&self, lent: &mut Lent) -> Result<Machine, Outcome> {
        let code = *lent.code.get(self.offset).ok_or(Outcome::BadCode)?;
        let length = operand_length(code).ok_or(Outcome::BadCode)?;
        let after = self.offset + 1 + length;
        let operands = lent.code.get(self.offset + 1..after);
        let operands = operands.ok_or(Outcome::BadCode)?;
        let mut next = *self;
        next.offset = after;
        next.instructions += 1;
        match code {
            TICK => next.tick(lent.budget)?,
            CONST => next.push(value_at(operands, 0))?,
            LOAD => next.push(lent.table[below(operands[0], lent.variables.len())?])?,
            STORE => next.store(operands[0], lent)?,
            NEG => next.negate()?,
            NOT => next.negate_truth()?,
            MUL..=OR => next.combine(code)?,
            JUMP => next.offset = self.landing(lent.code, target_at(operands, 0))?,
            JUMP_IF_ZERO | JUMP_IF_NOT_ZERO => {
                if (next.pop()? == 0) == (code == JUMP_IF_ZERO) {
                    next.offset = self.landing(lent.code, target_at(operands, 0))?;
                }
            }
            SPAN => next.span(value_at(operands, 0), value_at(operands, 4))?,
            DROP => {
                next.pop()?;
            }
            HOLD => next.hold(operands[0])?,
            FIRST => next.offset = self.first(operands, lent)?.unwrap_or(after),
            NEXT => next.offset = self.next(operands, lent)?.unwrap_or(after),
            HALT => return Err(Outcome::Done),
            _ => return Err(Outcome::BadCode),
        }
        Ok(next)
    }
}

/// Steps from the start until something stops the run.
fn run_code(lent: &mut Lent) -> Report {
    let mut machine = Machine::start();
    loop {
        match machine.step(lent) {
            Ok(next) => machine = next,
            Err(outcome) => {
                let halted = u64::from(outcome == Outcome::Done);
                return Report {
                    outcome,
                    ticks: machine.ticks,
                    instructions: machine.instructions + halted,
                    offset: machine.offset,
                };
            }
        }
    }
}

/// 23 and 24 report no ticks, no instructions, offset 0.
fn not_begun(outcome: Outcome) -> Report {
    Report {
        outcome,
        ticks: 0,
        instructions: 0,
        offset: 0,
    }
}

/// Runs an image over a table within a budget: 23, 24, then steps.
pub fn run(image: &[u8], budget: u32, table: &mut [i32]) -> Report {
    let Some(Image { variables, code }) = image::read(image) else {
        return not_begun(Outcome::BadImage);
    };
    if !table_is_valid(&variables, table) {
        return not_begun(Outcome::BadTable);
    }
    run_code(&mut Lent {
        variables: &variables,
        code,
        table,
        budget,
    })
}
