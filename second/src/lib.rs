//! An independent second program for the night card, written from document 01 alone.
//!
//! "P1 to P12 stand as a single table under a single theorem; other nights are
//! run against an independent second program."

pub mod bench;
pub mod block;
pub mod cell;
pub mod check_turns;
pub mod compare;
pub mod cues;
pub mod files;
pub mod hold;
pub mod logs;
pub mod maker;
pub mod night;
pub mod rack;
pub mod random;
pub mod records;
pub mod refusal;
pub mod scratch;
pub mod seen;
pub mod settle;
pub mod sheet;
pub mod sizes;
pub mod sound;
pub mod step;
pub mod text;
pub mod turn;
