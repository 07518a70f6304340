//! EAP-MSCHAPv2, peer and server: a safe wrapper of the proved archive.
//!
//! The archive is made by `tools/check boundary`. Its functions are proved to meet their
//! contracts; this crate adds types, so that no buffer of a wrong size can be passed, and nothing
//! else. It needs no `std`, allocates nothing and does no input or output: packets, randomness and
//! timers are the caller's.
//!
//! A login, both ends in memory:
//!
//! ```
//! use zirgumtak::{AccountCode, Answer, PasswordHash, Peer, Refusal, Server, TableBuilder};
//!
//! fn main() -> Result<(), Refusal> {
//!     let hash = PasswordHash::of("clientPass")?;
//!     let mut room = [0; 64];
//!     let mut accounts = TableBuilder::new(&mut room);
//!     accounts.append(AccountCode::MayLogIn, b"User", &hash)?;
//!
//!     let mut peer = Peer::new(br"CAMP\User", &hash)?;
//!     let mut server = Server::new();
//!     let (mut to_peer, mut to_server) = ([0; Server::REPLY_ROOM], [0; Peer::REPLY_ROOM]);
//!
//!     // Random octets in earnest; new ones at each call.
//!     let (challenge, random, fresh) = ([1; 16], [2; 16], [3; 16]);
//!     let mut request = server.start(7, &challenge, b"depot", 3, &mut to_peer)?;
//!     while let Answer::Written(packet) = request {
//!         let reply = peer.step(packet, &random, &mut to_server)?;
//!         request = server.packet(reply.packet(), accounts.table(), &fresh, &mut to_peer)?;
//!     }
//!     assert_eq!(request, Answer::Authenticated(&[3, 8, 0, 4]));
//!     let last = peer.step(request.packet(), &random, &mut to_server)?;
//!     assert_eq!(last.answer, Answer::Authenticated(&[]));
//!     Ok(())
//! }
//! ```
//!
//! # Packets
//!
//! [`Peer::step`] hands out the text that a server sent, a slice of the packet. Whoever looks into
//! other packets has [`read`], which hands out their fields in the same way, and a writer for each
//! kind, [`write_challenge`] and those after it.
//!
//! # Secrets
//!
//! A [`PasswordHash`], a [`Peer`] and a [`Server`] are wiped when they are dropped. That reaches
//! them where they are then. A value that is moved may leave its octets where it was, so one that
//! lives long is best kept in one place; and the archive's functions leave hash and password on the
//! stack that they used, which is the caller's to overwrite.
//!
//! # Versions
//!
//! Numbers may come to answers, refusals, stages, account codes and kinds of packets, so a `match`
//! of them needs a last arm for all others. The archive is to have this crate's version
//! ([`version`]): a number that this crate does not know is a panic.
//!
//! # Features
//!
//! `raw`, off by default, makes public the archive's functions over slices of any size. It is for
//! programs that test the sizes.
#![no_std]
#![deny(unsafe_code)]
#![warn(missing_docs)]

mod answer;
mod password;
mod peer;
#[cfg(feature = "raw")]
pub mod raw;
/// Nobody else can call these:
///
/// ```compile_fail,E0603
/// zirgumtak::raw::md4(&[], &mut []);
/// ```
#[cfg(not(feature = "raw"))]
mod raw;
mod reading;
mod server;
mod stateless;
mod table;
mod wiped;
mod writers;

pub use answer::{Answer, Refusal};
pub use password::PasswordHash;
pub use peer::{Peer, PeerStage, Step};
pub use reading::{read, ChapId, End, Packet, Reading};
pub use server::{Server, ServerStage};
pub use stateless::{authenticator, des, md4, nt_response, sha1, version};
pub use table::{accounts_check, AccountCode, TableBuilder};
pub use writers::{
    write_challenge, write_eap_failure, write_eap_success, write_failure_request,
    write_failure_response, write_response, write_success_request, write_success_response,
};

/// Hashes, challenges and random octets have 16 octets.
pub type Octets16 = [u8; 16];
