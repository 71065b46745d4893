//! Stands in for the crate of that name, written from document 01 and the published names.

pub mod num;
