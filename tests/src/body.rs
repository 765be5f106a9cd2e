//! Models from text (item 12 of document 02): a second reader of one process body, written
//! from the item's sentences. `lexer` and `parser` give the text's tree or the place where
//! no sentence goes on (26), `records` the made nodes and statements and the number of
//! given and made records together (27, then a model's own), `whole` the model's blocks,
//! `run` the meaning of the tree (source document 000, rules 8 to 15); `gen`, `damage`,
//! `texts` and `limits` are what it is tried on, `earley` reads by the grammar as a table.

pub mod damage;
pub mod earley;
pub mod gen;
pub mod lexer;
pub mod limits;
pub mod parser;
pub mod records;
pub mod run;
pub mod spell;
pub mod texts;
pub mod tree;
pub mod vhdl;
pub mod whole;

#[cfg(test)]
mod cases;
