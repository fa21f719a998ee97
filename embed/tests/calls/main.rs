//! The calls of a record against documents 01 and 02.

mod bundle;
mod cases;
mod common;
mod crash;
mod header;
mod limits;
mod lots;
mod merge;
mod names;
mod pending;
mod refusals;
mod reservations;
mod threads;
