//! An independent slow implementation of the desk, written from documents 01 and 02 alone; seeded cases to compare libraries with it;
//! and libraries that are wrong on purpose, to see that the cases tell them from it.

pub mod asking;
pub mod book;
pub mod calls;
pub mod cases;
pub mod causes;
pub mod compare;
pub mod coverage;
pub mod desk;
pub mod draft;
#[cfg(test)]
mod edges;
pub mod examples;
pub mod faults;
pub mod filter;
pub mod fitting;
pub mod forests;
pub mod forms;
pub mod joined;
pub mod joining;
pub mod joining_asked;
#[cfg(test)]
mod joining_edges;
pub mod joining_shapes;
pub mod kept;
pub mod library;
pub mod listing;
pub mod listings;
pub mod made;
pub mod many;
pub mod meaning;
pub mod meaning_shapes;
pub mod meant;
pub mod memory;
pub mod near;
pub mod nearest;
#[cfg(test)]
mod nearest_edges;
pub mod nearest_shapes;
pub mod pairs;
pub mod parts;
#[cfg(test)]
mod photograph_edges;
pub mod photograph_shapes;
pub mod photographs;
pub mod plan;
#[cfg(test)]
mod plan_edges;
pub mod plan_shapes;
pub mod profiled;
pub mod questions;
pub mod random;
pub mod reader;
pub mod repeats;
pub mod resend_shapes;
pub mod resends;
pub mod row;
#[cfg(test)]
mod row_edges;
pub mod row_shapes;
pub mod seconds;
pub mod shapes;
pub mod sheet;
pub mod short;
#[cfg(test)]
mod short_edges;
pub mod short_shapes;
pub mod slips;
pub mod standing;
pub mod steps;
pub mod tables;
pub mod text;
pub mod there_and_back;
pub mod tree_asked;
#[cfg(test)]
mod tree_edges;
pub mod tree_shapes;
pub mod trees;
pub mod turned;
pub mod turns;
pub mod versions;
