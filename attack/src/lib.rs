//! The proved card, linked as a static library and held to the independent second program.
//!
//! "Every public call has a promise that determines the reply and each byte of lent storage
//! afterwards, for all inputs, refused ones too": both are given the same tables, reached ones,
//! sound ones that no run could give, and spoiled ones, and every byte afterwards is compared.

pub mod by_hand;
pub mod card;
pub mod case;
pub mod judge;
pub mod lists;
pub mod plain;
pub mod played;
pub mod records;
pub mod spoil;
pub mod tables;
pub mod tally;
pub mod turn_cases;
