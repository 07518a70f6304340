//! What a packet says, to either end.

use crate::answer::{done_of, Refusal};
use crate::{raw, Octets16};

/// The end for which a packet is read.
#[derive(Clone, Copy, PartialEq, Eq, Debug)]
pub enum End {
    /// The logger.
    Peer,
    /// The server.
    Server,
}

/// An MS-CHAPv2-ID, so that it is not mixed up with an Identifier.
#[derive(Clone, Copy, PartialEq, Eq, Debug)]
pub struct ChapId(pub u8);

/// What an end reads in a packet; the slices are parts of that packet.
#[derive(Clone, Copy, PartialEq, Eq, Debug)]
#[non_exhaustive]
pub struct Reading<'p> {
    /// The Identifier.
    pub identifier: u8,
    /// The packet up to its Length, without padding.
    pub octets: &'p [u8],
    /// The kind of packet, and its fields.
    pub packet: Packet<'p>,
}

/// A kind of packet, and its fields.
#[derive(Clone, Copy, PartialEq, Eq, Debug)]
#[non_exhaustive]
pub enum Packet<'p> {
    /// A server asks who is there.
    Challenge {
        /// Its MS-CHAPv2-ID.
        chap_id: ChapId,
        /// The authenticator challenge.
        challenge: &'p Octets16,
        /// The server's name, of 1 to 994 octets.
        name: &'p [u8],
    },
    /// A peer's answer to a challenge.
    Response {
        /// Its MS-CHAPv2-ID.
        chap_id: ChapId,
        /// The peer challenge.
        peer_challenge: &'p Octets16,
        /// The NT-Response.
        nt_response: &'p [u8; 24],
        /// The peer's name, of 0 to 256 octets, with its domain.
        name: &'p [u8],
    },
    /// The Response was right.
    SuccessRequest {
        /// Its MS-CHAPv2-ID.
        chap_id: ChapId,
        /// The authenticator string after `S=`: 40 hex digits in upper case.
        digits: &'p [u8; 40],
        /// The text after `M=`, any octets; empty too where the message ends with its digits.
        text: &'p [u8],
    },
    /// The Response was wrong, or the account may not log in.
    FailureRequest {
        /// Its MS-CHAPv2-ID.
        chap_id: ChapId,
        /// The number after `E=`, up to 9,999,999,999: why.
        code: u64,
        /// Whether R=1 allows another try.
        retry: bool,
        /// The challenge of another try after `C=`: 32 hex digits of either case.
        digits: &'p [u8; 32],
        /// The text after `M=`, any octets.
        text: &'p [u8],
    },
    /// A peer took a Success Request.
    SuccessResponse,
    /// A peer took a Failure Request.
    FailureResponse,
    /// Authenticated.
    EapSuccess,
    /// Ended without.
    EapFailure,
}

impl<'p> Packet<'p> {
    /// The text after `M=`; `None` for a packet that is neither a Success nor a Failure Request.
    pub fn text(self) -> Option<&'p [u8]> {
        match self {
            Packet::SuccessRequest { text, .. } | Packet::FailureRequest { text, .. } => Some(text),
            _ => None,
        }
    }
}

/// Reads a packet for an end; else the first of 10 to 17 that holds.
///
/// ```
/// use zirgumtak::{read, End, Packet, Refusal};
///
/// fn main() -> Result<(), Refusal> {
///     let message = b"E=647 R=0 C=000102030405060708090A0B0C0D0E0F V=3 M=Ask the office.";
///     let octets = [&[1, 8, 0, 75, 26, 4, 8, 0, 70], &message[..]].concat();
///     let Packet::FailureRequest { code, text, .. } = read(End::Peer, &octets)?.packet else {
///         panic!("another packet");
///     };
///     assert_eq!((code, text), (647, &b"Ask the office."[..]));
///     Ok(())
/// }
/// ```
pub fn read(end: End, packet: &[u8]) -> Result<Reading<'_>, Refusal> {
    let end = match end {
        End::Peer => 0,
        End::Server => 1,
    };
    let mut octets = [0; OCTETS];
    done_of(raw::read(end, packet, &mut octets))?;
    Ok(Told { octets, packet }.reading())
}

/// The size of a reading as octets, and where its places stand (`zirgumtak.h`).
const OCTETS: usize = 25;
const CHALLENGE: usize = 13;
const RESPONSE: usize = 17;
const TAIL: usize = 21;

/// A reading as octets, and the packet in which it tells places.
struct Told<'p> {
    octets: [u8; OCTETS],
    packet: &'p [u8],
}

impl<'p> Told<'p> {
    fn reading(&self) -> Reading<'p> {
        Reading {
            identifier: self.octets[1],
            octets: &self.packet[..self.number(3)],
            packet: self.fields(),
        }
    }

    fn fields(&self) -> Packet<'p> {
        let chap_id = ChapId(self.octets[2]);
        match self.octets[0] {
            0 => Packet::Challenge {
                chap_id,
                challenge: self.fixed(CHALLENGE),
                name: self.part(TAIL),
            },
            1 => Packet::Response {
                chap_id,
                peer_challenge: self.fixed(CHALLENGE),
                nt_response: self.fixed(RESPONSE),
                name: self.part(TAIL),
            },
            2 => Packet::SuccessRequest {
                chap_id,
                digits: self.fixed(RESPONSE),
                text: self.part(TAIL),
            },
            kind @ 3..=4 => Packet::FailureRequest {
                chap_id,
                code: self.code(),
                retry: kind == 4,
                digits: self.fixed(CHALLENGE),
                text: self.part(TAIL),
            },
            5 => Packet::SuccessResponse,
            6 => Packet::FailureResponse,
            7 => Packet::EapSuccess,
            8 => Packet::EapFailure,
            kind => panic!("an archive of this crate's version reads no kind {kind}"),
        }
    }

    fn code(&self) -> u64 {
        let (octets, _) = self.octets[5..].split_first_chunk().expect("eight octets");
        u64::from_le_bytes(*octets)
    }

    fn number(&self, at: usize) -> usize {
        u16::from_le_bytes([self.octets[at], self.octets[at + 1]]).into()
    }

    /// The part of the packet whose start and length stand there.
    fn part(&self, at: usize) -> &'p [u8] {
        &self.packet[self.number(at)..][..self.number(at + 2)]
    }

    fn fixed<const N: usize>(&self, at: usize) -> &'p [u8; N] {
        let part = self.part(at).try_into();
        part.expect("an archive of this crate's version tells fields of their sizes")
    }
}
