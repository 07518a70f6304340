//! EAP-MSCHAPv2, peer and server, written from the papers alone.
//!
//! "Document 01" in the comments is the scope page (`01-scope.md`), whose numbers, sizes and
//! moves are followed sentence by sentence. Layouts are those of draft-kamath-pppext-eap-mschapv2-02
//! (source document 001), states those of [MS-CHAP] (source document 000).
//!
//! Every call answers one of the numbers in [`number`] and a count n. The calls of the two ends
//! answer both as a [`Numbered`], the peer's step with the [`Place`] of the server's text; a
//! stateless call answers `Ok(result)` for number 0 and `Err(number)` for a refusal, a writer's
//! result being its n.

#![forbid(unsafe_code)]

pub mod accounts;
pub mod des;
pub mod digest;
pub mod mschap;
pub mod packet;
pub mod peer;
pub mod server;

pub use packet::{ChapId, End, Identifier, Kind, Packet, Place};
pub use peer::{Peer, PeerStage};
pub use server::{Server, ServerStage};

/// Hashes, challenges and random octets are values of 16 octets (document 01, "Sizes").
pub type Octets16 = [u8; 16];

/// The number of the answer and n, the octets written to the reply buffer.
pub type Numbered = (u8, usize);

/// The longest packet: L is at most 1,020.
pub const MAX_PACKET: usize = 1020;
/// The longest name of a Response, of an account and of a server.
pub const MAX_NAME: usize = 256;
/// The longest password, in UTF-16 units.
pub const MAX_PASSWORD: usize = 256;
/// The largest retry count.
pub const MAX_RETRIES: u64 = 10;
/// The longest account table.
pub const MAX_TABLE: usize = 65_536;

/// Document 01, "What a call answers".
pub mod number {
    /// n reply octets written (or, for a stateless call, done).
    pub const REPLY: u8 = 0;
    /// The peer needs credentials.
    pub const NEEDS_CREDENTIALS: u8 = 1;
    pub const AUTHENTICATED: u8 = 2;
    pub const ENDED: u8 = 3;
    /// Fewer than 4 octets lent.
    pub const NO_HEADER: u8 = 10;
    /// L under 4 or over the octets lent.
    pub const BAD_LENGTH: u8 = 11;
    /// L over 1,020.
    pub const TOO_LONG: u8 = 12;
    /// Code not for this end.
    pub const BAD_CODE: u8 = 13;
    /// Code 1 or 2 and no Type octet, or Type not 26.
    pub const BAD_TYPE: u8 = 14;
    /// No OpCode, or not one of the table for that Code.
    pub const BAD_OPCODE: u8 = 15;
    /// L under 9, or MS-Length not L - 5.
    pub const BAD_MS_LENGTH: u8 = 16;
    /// The rest breaks its form.
    pub const BAD_FORM: u8 = 17;
    /// Wrong identifier.
    pub const WRONG_IDENTIFIER: u8 = 18;
    /// This state doesn't take this packet or call.
    pub const NOT_TAKEN: u8 = 19;
    /// Reply longer than the buffer.
    pub const NO_ROOM: u8 = 20;
    /// Account table malformed.
    pub const BAD_TABLE: u8 = 21;
    /// Fresh challenge equals the outstanding one, and a Failure Request is due.
    pub const STALE_CHALLENGE: u8 = 22;
    /// An argument outside its size.
    pub const BAD_ARGUMENT: u8 = 23;
}

/// A refusal writes nothing: its n is 0.
fn numbered(answer: Result<Numbered, u8>) -> Numbered {
    answer.unwrap_or_else(|refusal| (refusal, 0))
}

/// The octets a length field stands for: a length past its array counts as the array's.
fn held(array: &[u8], length: u16) -> &[u8] {
    &array[..usize::from(length).min(array.len())]
}

/// Sets an array with a length whole: the octets, and zeros after them.
fn hold(array: &mut [u8], length: &mut u16, octets: &[u8]) {
    let (front, back) = array.split_at_mut(octets.len());
    front.copy_from_slice(octets);
    back.fill(0);
    *length = octets.len() as u16;
}

/// Writes a stored packet again, or answers 20.
fn put(reply: &mut [u8], stored: &[u8]) -> Result<Numbered, u8> {
    let room = reply.get_mut(..stored.len()).ok_or(number::NO_ROOM)?;
    room.copy_from_slice(stored);
    Ok((number::REPLY, stored.len()))
}
