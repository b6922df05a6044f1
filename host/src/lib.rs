//! An independent planner for depot tasks, written from the paper, and what compares the proved planner with it.
//!
//! The way of the data: bytes (`record`) → tables (`star`, `edges`) → layers (`layer`) → nodes (`explore`) → plan bytes (`wayback`).
//! `plain` holds the three functions that stand beside the proved library's.

pub mod calls;
pub mod depot;
pub mod draft;
pub mod drive;
pub mod edges;
pub mod explore;
pub mod layer;
pub mod lent;
pub mod plain;
pub mod random;
pub mod record;
pub mod star;
pub mod uniform;
pub mod wayback;

#[cfg(feature = "proved")]
pub mod ffi;
