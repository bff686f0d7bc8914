//! A plain model of the sealed cabinet, written from docs/ alone.

pub mod audit;
pub mod beliefs;
pub mod boxes;
pub mod cabinet;
pub mod pairs;
pub mod questions;
pub mod refusal;
pub mod scripts;
pub mod tables;
