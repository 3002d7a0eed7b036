//! Independent implementations of what the calculator works out, and the calculator's own libraries beside them.
//! The tests compare them. Nothing here is generated from the Rattle sources or shares code with them.

pub mod arithmetic;
pub mod bitsets;
pub mod calls;
pub mod chosen;
pub mod citations;
pub mod claims;
pub mod counting;
pub mod desk;
pub mod game;
pub mod library;
pub mod listing;
pub mod names;
pub mod pieces;
pub mod plans;
pub mod programs;
pub mod random;
pub mod repository;
pub mod rule;
pub mod scripts;
pub mod sittings;
pub mod states;
pub mod tables;
pub mod versions;
