//! Reservations that are wrong on the bytes: reserved lots taken for something else,
//! and calls that send, leave or refuse otherwise.

mod calls;
mod lots;
