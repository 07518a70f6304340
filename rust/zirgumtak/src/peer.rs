//! The logger's end.

use core::fmt;

use crate::answer::{answer_of, done_of, text_of, Answer, Refusal};
use crate::wiped::Wiped;
use crate::{raw, Octets16, PasswordHash};

/// The stages of a peer.
#[derive(Clone, Copy, PartialEq, Eq, Debug)]
#[non_exhaustive]
pub enum PeerStage {
    /// Made, and nothing answered yet.
    Begin,
    /// A Response is outstanding.
    ChallengeResponseSent,
    /// The server has shown that it knows the password, and that was acknowledged.
    SuccessResponseSent,
    /// The server's failure was acknowledged.
    FailureResponseSent,
    /// The server allows another try; the caller is to supply credentials or give up.
    Waiting,
    /// Authenticated.
    Success,
    /// Ended without.
    Failed,
}

/// What a step of a peer answers, and the text that the server sent.
///
/// ```
/// use zirgumtak::Step;
///
/// fn show(step: Step) {
///     if let Some(text) = step.text {
///         println!("the server says: {}", text.escape_ascii());
///     }
/// }
/// ```
#[derive(Clone, Copy, PartialEq, Eq, Debug)]
#[non_exhaustive]
pub struct Step<'p, 'b> {
    /// What the call answers.
    pub answer: Answer<'b>,
    /// The server's text, what the packet has after `M=`: any octets, in no encoding that is told.
    /// `None` where the packet is neither a Success nor a Failure Request; `Some(&[])` where the
    /// text is empty, or a Success message ends with its digits.
    pub text: Option<&'p [u8]>,
}

impl<'b> Step<'_, 'b> {
    /// The number of the answer.
    pub fn number(self) -> u8 {
        self.answer.number()
    }

    /// The packet to send, of no octets where there is none.
    pub fn packet(self) -> &'b [u8] {
        self.answer.packet()
    }
}

/// The peer: the one that logs in.
///
/// The state is octets of a fixed layout (`zirgumtak.h`), and may be stored and brought back. It
/// holds the password hash, and is wiped when it is dropped.
#[derive(Clone)]
pub struct Peer {
    octets: Wiped<{ Peer::OCTETS }>,
}

impl Peer {
    /// The size of the state.
    pub const OCTETS: usize = 1667;
    /// The longest packet that is read.
    pub const MAX_PACKET: usize = 1020;
    /// The longest name.
    pub const MAX_NAME: usize = 256;
    /// A reply buffer of this size is always enough.
    pub const REPLY_ROOM: usize = 315;

    /// A peer in BEGIN; [`Refusal::BadArgument`] for a name over 256 octets.
    pub fn new(name: &[u8], hash: &PasswordHash) -> Result<Peer, Refusal> {
        let mut peer = Peer::from_octets([0; Peer::OCTETS]);
        done_of(raw::peer_new(&mut peer.octets.0, name, hash.octets()))?;
        // A move would leave the octets here; this one is wiped.
        Ok(peer.clone())
    }

    /// Takes a packet. The random octets are to be new at each call; they become the peer
    /// challenge if a Response is made. A request that comes again brings the same reply again. A
    /// Success message may end with its 40 digits or go on with ` M=` and any text; that text, and
    /// a Failure message's, comes with the answer, whether it is the first time or again.
    ///
    /// Refusals, the first that holds: 10 to 17, 19, 18, 20.
    pub fn step<'p, 'b>(
        &mut self,
        packet: &'p [u8],
        random: &Octets16,
        reply: &'b mut [u8],
    ) -> Result<Step<'p, 'b>, Refusal> {
        let word = raw::peer_step(&mut self.octets.0, packet, random, reply);
        let (answer, text) = (answer_of(word, reply)?, text_of(word, packet));
        Ok(Step { answer, text })
    }

    /// Answers the kept Failure Request with these credentials, in WAITING.
    ///
    /// Refusals, the first that holds: 19, 23 (a name over 256 octets), 20.
    pub fn supply<'b>(
        &mut self,
        name: &[u8],
        hash: &PasswordHash,
        random: &Octets16,
        reply: &'b mut [u8],
    ) -> Result<Answer<'b>, Refusal> {
        let word = raw::peer_supply(&mut self.octets.0, name, hash.octets(), random, reply);
        answer_of(word, reply)
    }

    /// Ends the conversation in WAITING, with nothing to send; 19 elsewhere.
    pub fn give_up(&mut self) -> Result<(), Refusal> {
        done_of(raw::peer_give_up(&mut self.octets.0))
    }

    /// The stage, octet 0 of the state.
    pub fn stage(&self) -> PeerStage {
        match self.octets.0[0] {
            0 => PeerStage::Begin,
            1 => PeerStage::ChallengeResponseSent,
            2 => PeerStage::SuccessResponseSent,
            3 => PeerStage::FailureResponseSent,
            4 => PeerStage::Waiting,
            5 => PeerStage::Success,
            _ => PeerStage::Failed,
        }
    }

    /// The state, to be stored where secrets are kept.
    pub fn octets(&self) -> &[u8; Peer::OCTETS] {
        &self.octets.0
    }

    /// A stored state. Any octets are some state; nothing tells one that was tampered with.
    pub fn from_octets(octets: [u8; Peer::OCTETS]) -> Peer {
        Peer {
            octets: Wiped(octets),
        }
    }
}

/// The stage alone: the rest holds secrets.
impl fmt::Debug for Peer {
    fn fmt(&self, out: &mut fmt::Formatter<'_>) -> fmt::Result {
        out.debug_struct("Peer")
            .field("stage", &self.stage())
            .finish_non_exhaustive()
    }
}
