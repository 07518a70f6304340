//! Drives the proved archive and the second program side by side, and compares all that they
//! answer and write. They share no code; a state crosses as octets.

pub mod boundary;
pub mod call;
pub mod layout;
pub mod packets;
pub mod pair;
pub mod parts;
pub mod random;
