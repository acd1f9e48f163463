//! The second program of document 01 ("Pinning every answer down"): an independent engine, plain
//! and fast, with which the proved one is compared. Written from documents 01 and 02 and docs/DECISIONS.md alone.

pub mod causes;
pub mod desk;
pub mod engine;
pub mod form;
pub mod label;
pub mod lists;
pub mod model;
pub mod random;
pub mod search;
pub mod sheet;
pub mod table;
pub mod verdict;
pub mod write;
