//! The compiler: the stages in the order of the numbers, and the desk's line.

use crate::figures::{depth, worst_case};
use crate::image;
use crate::numbers::{
    refuse, Fault, Refusal, CODE_LIMIT, IMAGE_LIMIT, TEXT_LIMIT, UNBOUNDED, WORKING_MEMORY_LENGTH,
};
use crate::program::Program;
use crate::syntax::{tree, Tree};
use crate::tokens::tokens;
use crate::translate::translate;
use crate::walk::walk;

/// An accepted text.
#[derive(Clone, Debug, PartialEq, Eq)]
pub struct Accepted {
    pub program: Program,
    pub image: Vec<u8>,
    pub code_length: usize,
    pub depth: usize,
    /// The worst case in ticks, or the unbounded mark.
    pub worst_case: u32,
}

/// 1; tokens; syntax and nesting.
pub fn parse(text: &[u8]) -> Result<Tree, Refusal> {
    if text.len() > TEXT_LIMIT {
        return refuse(Fault::TextTooLong, TEXT_LIMIT);
    }
    let tokens = tokens(text)?;
    tree(&tokens, text.len())
}

/// 17; 1; tokens; syntax and nesting; the walk; last 13, 14.
pub fn compile(
    text: &[u8],
    working_memory_length: usize,
    image_capacity: usize,
) -> Result<Accepted, Refusal> {
    if working_memory_length < WORKING_MEMORY_LENGTH {
        return refuse(Fault::WorkingMemoryShort, 0);
    }
    let tree = parse(text)?;
    let program = walk(&tree)?;
    let code = translate(&program);
    if code.len() > CODE_LIMIT {
        return refuse(Fault::CodeTooLong, text.len());
    }
    let (depth, worst_case) = (depth(&program), worst_case(&program));
    let image = image::write(&program.variables, &code, depth, worst_case);
    if image.len() > image_capacity {
        return refuse(Fault::ImageDoesNotFit, text.len());
    }
    Ok(Accepted {
        program,
        image,
        code_length: code.len(),
        depth,
        worst_case,
    })
}

/// Compiles with enough working memory and room for every image.
pub fn compile_text(text: &[u8]) -> Result<Accepted, Refusal> {
    compile(text, WORKING_MEMORY_LENGTH, IMAGE_LIMIT)
}

/// Compiles with lent memory. Working memory ends all zero unless 17; of the image buffer only an
/// accepted image's own bytes change.
pub fn compile_into(
    text: &[u8],
    working_memory: &mut [u8],
    image: &mut [u8],
) -> Result<Accepted, Refusal> {
    let answer = compile(text, working_memory.len(), image.len());
    match &answer {
        Ok(accepted) => image[..accepted.image.len()].copy_from_slice(&accepted.image),
        Err(refusal) if refusal.fault == Fault::WorkingMemoryShort => return answer,
        Err(_) => {}
    }
    working_memory.fill(0);
    answer
}

/// `REFUSED`, number, place.
pub fn refused_line(refusal: Refusal) -> String {
    format!("REFUSED {} {}", refusal.fault.number(), refusal.place)
}

/// The desk's line: `ACCEPTED`, image bytes, code bytes, depth, worst case (`-` if unbounded).
pub fn desk_line(text: &[u8]) -> String {
    let accepted = match compile_text(text) {
        Ok(accepted) => accepted,
        Err(refusal) => return refused_line(refusal),
    };
    let worst_case = match accepted.worst_case {
        UNBOUNDED => "-".to_string(),
        ticks => ticks.to_string(),
    };
    format!(
        "ACCEPTED {} {} {} {}",
        accepted.image.len(),
        accepted.code_length,
        accepted.depth,
        worst_case
    )
}
