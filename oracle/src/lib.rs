//! The unchanged `qc_asm` as oracle of the port: rows and lists in document 01's shape go in,
//! parcels, counts and refusals in document 01's numbers come out.

pub mod backwards;
pub mod bench;
pub mod cases;
pub mod every_row;
pub mod finished;
pub mod fronts;
pub mod huge;
pub mod judge;
pub mod kernels;
#[cfg(feature = "linked")]
pub mod linked;
pub mod list;
pub mod lists;
pub mod one;
pub mod random;
pub mod reading;
pub mod refusal;
pub mod row;
pub mod rows;
#[cfg(feature = "linked")]
pub mod same;
pub mod sample_benches;
pub mod sample_lists;
pub mod sample_rows;
pub mod search;
pub mod second;
pub mod shrink;
pub mod slot_lists;
pub mod tail_lists;
pub mod tails;
pub mod widening;
