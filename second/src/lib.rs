//! The rules of Moffatrell carried out plainly, one file for one section of the rules.

pub mod codes;
pub mod compile;
pub mod evaluate;
pub mod figures;
pub mod generate;
pub mod image;
pub mod machine;
pub mod numbers;
pub mod program;
pub mod protocol;
pub mod syntax;
pub mod tokens;
pub mod translate;
pub mod tree;
pub mod walk;
