//! The server's end.

use core::fmt;

use crate::answer::{answer_of, Answer, Refusal};
use crate::wiped::Wiped;
use crate::{raw, Octets16};

/// The stages of a server.
#[derive(Clone, Copy, PartialEq, Eq, Debug)]
#[non_exhaustive]
pub enum ServerStage {
    /// Made, and not started yet.
    Begin,
    /// A Challenge is outstanding, or a Failure Request that allows another try.
    ChallengeSent,
    /// A Response was right, and the peer was told.
    SuccessRequestSent,
    /// The last failure was told.
    FailureRequestSent,
    /// Authenticated.
    Success,
    /// Ended without.
    Failed,
}

/// The server of one conversation.
///
/// The state is octets of a fixed layout (`zirgumtak.h`), and may be stored and brought back. It
/// is wiped when it is dropped.
#[derive(Clone)]
pub struct Server {
    octets: Wiped<{ Server::OCTETS }>,
}

impl Server {
    /// The size of the state.
    pub const OCTETS: usize = 304;
    /// The longest name of a server.
    pub const MAX_NAME: usize = 256;
    /// The largest retry count.
    pub const MAX_RETRIES: u64 = 10;
    /// The longest account table.
    pub const MAX_TABLE: usize = 65_536;
    /// A reply buffer of this size is always enough.
    pub const REPLY_ROOM: usize = 282;

    /// A server in BEGIN.
    pub fn new() -> Server {
        let mut server = Server::from_octets([0; Server::OCTETS]);
        let word = raw::server_new(&mut server.octets.0);
        debug_assert_eq!(word, 0, "a state of the right size is made");
        server
    }

    /// Writes the Challenge under the first Identifier. The challenge is to be random.
    ///
    /// Refusals, the first that holds: 19 outside BEGIN, 23 (a name of 0 octets or over 256, more
    /// than 10 retries), 20.
    pub fn start<'b>(
        &mut self,
        identifier: u8,
        challenge: &Octets16,
        name: &[u8],
        retries: u64,
        reply: &'b mut [u8],
    ) -> Result<Answer<'b>, Refusal> {
        let word = raw::server_start(
            &mut self.octets.0,
            identifier,
            challenge,
            name,
            retries,
            reply,
        );
        answer_of(word, reply)
    }

    /// Takes a packet. A Response is judged by the account table, which is not looked at for any
    /// other packet. The fresh challenge, random and new at each call, goes into a Failure Request.
    ///
    /// Refusals, the first that holds: 10 to 17, 19, 18, 21, 22, 20.
    pub fn packet<'b>(
        &mut self,
        packet: &[u8],
        table: &[u8],
        fresh: &Octets16,
        reply: &'b mut [u8],
    ) -> Result<Answer<'b>, Refusal> {
        let word = raw::server_packet(&mut self.octets.0, packet, table, fresh, reply);
        answer_of(word, reply)
    }

    /// Writes the outstanding request again, for a peer that does not answer; 19, 20.
    pub fn resend<'b>(&self, reply: &'b mut [u8]) -> Result<Answer<'b>, Refusal> {
        let word = raw::server_resend(&self.octets.0, reply);
        answer_of(word, reply)
    }

    /// The stage, octet 0 of the state.
    pub fn stage(&self) -> ServerStage {
        match self.octets.0[0] {
            0 => ServerStage::Begin,
            1 => ServerStage::ChallengeSent,
            2 => ServerStage::SuccessRequestSent,
            3 => ServerStage::FailureRequestSent,
            4 => ServerStage::Success,
            _ => ServerStage::Failed,
        }
    }

    /// The state, to be stored.
    pub fn octets(&self) -> &[u8; Server::OCTETS] {
        &self.octets.0
    }

    /// A stored state. Any octets are some state; nothing tells one that was tampered with.
    pub fn from_octets(octets: [u8; Server::OCTETS]) -> Server {
        Server {
            octets: Wiped(octets),
        }
    }
}

impl Default for Server {
    fn default() -> Server {
        Server::new()
    }
}

/// The stage alone.
impl fmt::Debug for Server {
    fn fmt(&self, out: &mut fmt::Formatter<'_>) -> fmt::Result {
        out.debug_struct("Server")
            .field("stage", &self.stage())
            .finish_non_exhaustive()
    }
}
