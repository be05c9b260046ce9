//! What the outside tests and the bench share. Nothing here uses code of the proved libraries; `library` only calls them.
pub mod bounds;
pub mod chance;
pub mod damage;
pub mod enumerate;
pub mod exhaustive;
pub mod generate;
pub mod known;
pub mod library;
pub mod limits;
pub mod outcome;
pub mod plan;
pub mod reader;
pub mod second;
pub mod side;
pub mod tally;
