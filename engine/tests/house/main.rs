//! The rules of the house, held against the tree: what is imported is used, a
//! public law is cited or promised, lines and paths can be read, the proofs are
//! small beside the code, a pair's count is widened at one place, the lower
//! part is closed, and the documents name what is there. Each rule is one test,
//! and fails with the whole list of what it found, as FILE:LINE: WHAT.

mod aliases;
mod citations;
mod closed;
mod code;
mod counts;
mod found;
mod glossary;
mod imports;
mod laws;
mod layers;
mod lengths;
mod names;
mod passages;
mod paths;
mod programs;
mod promises;
mod proofs_page;
#[path = "../shared/table.rs"]
mod table;
mod tree;
mod unused;
mod volume;
mod words;
mod wrong_desks;
