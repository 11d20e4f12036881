//! Compares the proved kit, and fast Rust, with the judge: inputs made from a seed, all asked, and what comes back compared.

pub mod books;
pub mod cases;
pub mod compare;
pub mod damage;
pub mod draft;
pub mod limits;
pub mod lists;
pub mod models;
pub mod random;
pub mod tally;
pub mod trees;
