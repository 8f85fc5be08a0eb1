//! The figures of a program: stack height, depth and worst case.

use crate::numbers::{UNBOUNDED, WORST_CASE_LIMIT};
use crate::program::{Expression, For, Program, Statement, Unary};

/// Operand 1; unary as its operand; binary the larger of the left's and one more than the right's.
pub fn height(expression: &Expression) -> usize {
    match expression {
        Expression::Constant(_) | Expression::Variable(_) => 1,
        Expression::Parentheses(inside) => height(inside),
        Expression::Unary(_, operand) => height(operand),
        Expression::Chain(first, rest) => rest.iter().fold(height(first), |left, (_, right)| {
            left.max(height(right) + 1)
        }),
    }
}

fn depth_of_statement(statement: &Statement) -> usize {
    match statement {
        Statement::Assignment { value, .. } => height(value),
        Statement::If {
            branches,
            otherwise,
        } => {
            let of_branch = |branch: &crate::program::Branch| {
                height(&branch.condition).max(depth_of_list(&branch.list))
            };
            let of_branches = branches.iter().map(of_branch).max().unwrap_or(0);
            let of_else = otherwise.as_deref().map_or(0, depth_of_list);
            of_branches.max(of_else)
        }
        Statement::Case {
            selector,
            groups,
            otherwise,
        } => {
            let of_groups = groups.iter().map(|group| depth_of_list(&group.list));
            let of_lists = of_groups.max().unwrap_or(0).max(depth_of_list(otherwise));
            height(selector).max(2).max(of_lists)
        }
        Statement::For(For {
            initial,
            final_value,
            body,
            ..
        }) => height(initial)
            .max(height(final_value) + 1)
            .max(depth_of_list(body)),
        Statement::While { condition, body } | Statement::Repeat { body, condition } => {
            height(condition).max(depth_of_list(body))
        }
        Statement::Exit => 0,
    }
}

fn depth_of_list(list: &[Statement]) -> usize {
    list.iter().map(depth_of_statement).max().unwrap_or(0)
}

/// The largest height over all expressions, a FOR final counting one more, a CASE at least 2.
pub fn depth(program: &Program) -> usize {
    depth_of_list(&program.list)
}

/// The value of a bound that is one integer with an optional sign and no parentheses.
fn one_integer(bound: &Expression) -> Option<i64> {
    match bound {
        Expression::Constant(value) => Some(i64::from(*value)),
        Expression::Unary(sign, operand) => match (sign, operand.as_ref()) {
            (Unary::Minus, Expression::Constant(value)) => Some(-i64::from(*value)),
            (Unary::Plus, Expression::Constant(value)) => Some(i64::from(*value)),
            _ => None,
        },
        _ => None,
    }
}

/// The number of passes of a FOR from `initial` to `final_value`.
fn passes_of_for(initial: i64, final_value: i64, step: i32) -> u128 {
    let distance = if step > 0 {
        final_value - initial
    } else {
        initial - final_value
    };
    match u128::try_from(distance) {
        Ok(distance) => distance / u128::from(step.unsigned_abs()) + 1,
        Err(_) => 0,
    }
}

/// The worst case of a statement; `None` if it has a loop that isn't bounded.
///
/// The numbers saturate far above the limit, so that every total up to the limit is exact: a
/// saturated part is either taken 0 times or keeps the total over the limit.
fn worst_case_of_statement(statement: &Statement) -> Option<u128> {
    match statement {
        Statement::Assignment { .. } | Statement::Exit => Some(1),
        Statement::If {
            branches,
            otherwise,
        } => {
            let lists = branches.iter().map(|branch| branch.list.as_slice());
            let largest = largest_worst_case(lists.chain(otherwise.as_deref()))?;
            Some(largest.saturating_add(1))
        }
        Statement::Case {
            groups, otherwise, ..
        } => {
            let lists = groups.iter().map(|group| group.list.as_slice());
            let largest = largest_worst_case(lists.chain([otherwise.as_slice()]))?;
            Some(largest.saturating_add(1))
        }
        Statement::For(For {
            initial,
            final_value,
            step,
            body,
            ..
        }) => {
            let body = worst_case_of_list(body)?;
            let passes = passes_of_for(one_integer(initial)?, one_integer(final_value)?, *step);
            Some(
                passes
                    .saturating_mul(body.saturating_add(1))
                    .saturating_add(1),
            )
        }
        Statement::While { .. } | Statement::Repeat { .. } => None,
    }
}

fn largest_worst_case<'l>(lists: impl Iterator<Item = &'l [Statement]>) -> Option<u128> {
    let mut largest = 0;
    for list in lists {
        largest = worst_case_of_list(list)?.max(largest);
    }
    Some(largest)
}

fn worst_case_of_list(list: &[Statement]) -> Option<u128> {
    let mut sum: u128 = 0;
    for statement in list {
        sum = sum.saturating_add(worst_case_of_statement(statement)?);
    }
    Some(sum)
}

/// The worst case in ticks, or the unbounded mark.
pub fn worst_case(program: &Program) -> u32 {
    match worst_case_of_list(&program.list).map(u32::try_from) {
        Some(Ok(total)) if total <= WORST_CASE_LIMIT => total,
        _ => UNBOUNDED,
    }
}
