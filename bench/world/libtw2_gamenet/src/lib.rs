//! Stands in for the crate of that name, written from document 01 and the published field names.

pub mod msg;
pub mod snap_obj;
