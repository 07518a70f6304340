//! The logger's moves (peer): document 01's section of that name.

use crate::mschap::{self, AuthenticatorString};
use crate::number::*;
use crate::packet::{self, ChapId, End, Identifier, Kind, Packet, Place, MAX_RESPONSE};
use crate::{held, hold, numbered, put, Numbered, Octets16, MAX_NAME, MAX_PACKET};

/// The stages of source document 000, and WAITING.
#[derive(Clone, Copy, PartialEq, Eq, Debug)]
pub enum PeerStage {
    Begin,
    ChallengeResponseSent,
    SuccessResponseSent,
    FailureResponseSent,
    Waiting,
    Success,
    Failed,
}

use PeerStage::*;

/// The state of a peer. Any value may be handed in: a length past its array counts as the
/// array's length. A move changes only the fields it names.
#[derive(Clone, PartialEq, Eq, Debug)]
pub struct Peer {
    pub stage: PeerStage,
    pub name: [u8; MAX_NAME],
    pub name_len: u16,
    pub password_hash: Octets16,
    pub authenticator_challenge: Octets16,
    pub peer_challenge: Octets16,
    pub chapid: ChapId,
    /// The last answered request; in WAITING, the kept Failure Request.
    pub request: [u8; MAX_PACKET],
    pub request_len: u16,
    /// The reply to it.
    pub reply: [u8; MAX_RESPONSE],
    pub reply_len: u16,
    /// The right string for a Success Request, worked out with the last Response.
    pub expected: AuthenticatorString,
}

/// The moves of the stage table.
enum Move {
    /// A Challenge brings a Response.
    Respond,
    /// A Success Request brings a Success Response, or the end.
    Verify,
    /// A Failure Request with R=0 brings a Failure Response.
    Concede,
    /// A Failure Request with R=1 asks the caller for credentials.
    Wait,
    /// EAP Success or EAP Failure ends the conversation.
    End(Numbered, PeerStage),
}

impl Peer {
    /// A fresh peer in BEGIN (0, n = 0), or a FAILED one for a name over 256 octets (23).
    pub fn new(name: &[u8], password_hash: &Octets16) -> (Numbered, Peer) {
        let mut peer = Peer::zero();
        if name.len() > MAX_NAME {
            peer.stage = Failed;
            return ((BAD_ARGUMENT, 0), peer);
        }
        hold(&mut peer.name, &mut peer.name_len, name);
        peer.password_hash = *password_hash;
        ((REPLY, 0), peer)
    }

    /// Takes a packet. The random octets are used only as the peer challenge of a Response. Also
    /// tells where the server's text lies in the packet: 0 and 0 where the step refuses, or the
    /// packet is neither a Success nor a Failure Request.
    pub fn step(&mut self, lent: &[u8], random: &Octets16, reply: &mut [u8]) -> (Numbered, Place) {
        self.read_and_take(lent, random, reply)
            .unwrap_or_else(|refusal| ((refusal, 0), (0, 0)))
    }

    /// Credentials in WAITING: a Response to C, under the kept request's two numbers.
    pub fn supply(
        &mut self,
        name: &[u8],
        password_hash: &Octets16,
        random: &Octets16,
        reply: &mut [u8],
    ) -> Numbered {
        numbered(self.retry(name, password_hash, random, reply))
    }

    /// No credentials in WAITING: the end, without a packet.
    pub fn give_up(&mut self) -> Numbered {
        if self.stage != Waiting {
            return (NOT_TAKEN, 0);
        }
        self.stage = Failed;
        (ENDED, 0)
    }

    fn zero() -> Peer {
        Peer {
            stage: Begin,
            name: [0; MAX_NAME],
            name_len: 0,
            password_hash: [0; 16],
            authenticator_challenge: [0; 16],
            peer_challenge: [0; 16],
            chapid: ChapId(0),
            request: [0; MAX_PACKET],
            request_len: 0,
            reply: [0; MAX_RESPONSE],
            reply_len: 0,
            expected: [0; 20],
        }
    }

    /// 10 to 17, then the packet is taken.
    fn read_and_take(
        &mut self,
        lent: &[u8],
        random: &Octets16,
        reply: &mut [u8],
    ) -> Result<(Numbered, Place), u8> {
        let packet = packet::read(End::Peer, lent)?;
        let answer = self.take(&packet, &lent[..packet.length], random, reply)?;
        Ok((answer, packet.text()))
    }

    /// In the order of document 01: the repeat rule, 19, 18, 20.
    fn take(
        &mut self,
        packet: &Packet,
        octets: &[u8],
        random: &Octets16,
        reply: &mut [u8],
    ) -> Result<Numbered, u8> {
        if self.is_repeat(packet, octets) {
            return put(reply, held(&self.reply, self.reply_len));
        }
        let taken = self.move_for(packet.kind)?;
        self.check_identifier(packet)?;
        match taken {
            Move::Respond => self.respond(packet, octets, random, reply),
            Move::Verify if packet.string != self.expected => {
                self.stage = Failed;
                Ok((ENDED, 0))
            }
            Move::Verify => {
                let n = packet::write_success_response(packet.id, reply)?;
                Ok(self.sent(SuccessResponseSent, octets, &reply[..n]))
            }
            Move::Concede => {
                let n = packet::write_failure_response(packet.id, reply)?;
                Ok(self.sent(FailureResponseSent, octets, &reply[..n]))
            }
            Move::Wait => Ok(self.wait(packet, octets)),
            Move::End(answer, stage) => {
                self.stage = stage;
                Ok(answer)
            }
        }
    }

    /// Repeat rule: in the SENT stages, a Request whose first L octets are the last answered
    /// request's. Padding is not compared.
    fn is_repeat(&self, packet: &Packet, octets: &[u8]) -> bool {
        matches!(
            self.stage,
            ChallengeResponseSent | SuccessResponseSent | FailureResponseSent
        ) && is_request(packet.kind)
            && octets == held(&self.request, self.request_len)
    }

    /// The stage table, or 19.
    fn move_for(&self, kind: Kind) -> Result<Move, u8> {
        match (self.stage, kind) {
            (Begin, Kind::Challenge) => Ok(Move::Respond),
            (ChallengeResponseSent, Kind::SuccessRequest) => Ok(Move::Verify),
            (ChallengeResponseSent, Kind::FailureRequest) => Ok(Move::Concede),
            (ChallengeResponseSent, Kind::RetryRequest) => Ok(Move::Wait),
            (SuccessResponseSent, Kind::EapSuccess) => Ok(Move::End((AUTHENTICATED, 0), Success)),
            (
                ChallengeResponseSent | SuccessResponseSent | FailureResponseSent,
                Kind::EapFailure,
            ) => Ok(Move::End((ENDED, 0), Failed)),
            _ => Err(NOT_TAKEN),
        }
    }

    /// 18: another Request with the last answered Identifier, or an EAP Success or Failure with
    /// another one. In BEGIN nothing was answered yet. Identifiers have no order.
    fn check_identifier(&self, packet: &Packet) -> Result<(), u8> {
        if self.stage == Begin {
            return Ok(());
        }
        let is_last = packet.id == self.last_identifier();
        let is_wrong = if is_request(packet.kind) {
            is_last
        } else {
            !is_last
        };
        if is_wrong {
            return Err(WRONG_IDENTIFIER);
        }
        Ok(())
    }

    /// The last request's Identifier, which is its octet 1.
    fn last_identifier(&self) -> Identifier {
        Identifier(self.request_octet(1))
    }

    /// The last request's MS-CHAPv2-ID, which is its octet 6.
    fn last_chapid(&self) -> ChapId {
        ChapId(self.request_octet(6))
    }

    /// An octet of the last request, 0 where there is none.
    fn request_octet(&self, at: usize) -> u8 {
        let request = held(&self.request, self.request_len);
        request.get(at).copied().unwrap_or(0)
    }

    fn respond(
        &mut self,
        packet: &Packet,
        octets: &[u8],
        random: &Octets16,
        reply: &mut [u8],
    ) -> Result<Numbered, u8> {
        let credentials = Credentials {
            name: self.name(),
            password_hash: &self.password_hash,
        };
        let (n, expected) =
            credentials.write(packet.id, packet.chapid, &packet.challenge, random, reply)?;
        self.authenticator_challenge = packet.challenge;
        self.peer_challenge = *random;
        self.chapid = packet.chapid;
        self.expected = expected;
        Ok(self.sent(ChallengeResponseSent, octets, &reply[..n]))
    }

    fn retry(
        &mut self,
        name: &[u8],
        password_hash: &Octets16,
        random: &Octets16,
        reply: &mut [u8],
    ) -> Result<Numbered, u8> {
        if self.stage != Waiting {
            return Err(NOT_TAKEN);
        }
        if name.len() > MAX_NAME {
            return Err(BAD_ARGUMENT);
        }
        let credentials = Credentials {
            name,
            password_hash,
        };
        let challenge = &self.authenticator_challenge;
        let (id, chapid) = (self.last_identifier(), self.last_chapid());
        let (n, expected) = credentials.write(id, chapid, challenge, random, reply)?;
        self.stage = ChallengeResponseSent;
        hold(&mut self.name, &mut self.name_len, name);
        self.password_hash = *password_hash;
        self.peer_challenge = *random;
        self.chapid = chapid;
        self.expected = expected;
        hold(&mut self.reply, &mut self.reply_len, &reply[..n]);
        Ok((REPLY, n))
    }

    /// A request answered: what the repeat rule needs is kept.
    fn sent(&mut self, stage: PeerStage, request: &[u8], reply: &[u8]) -> Numbered {
        self.stage = stage;
        hold(&mut self.request, &mut self.request_len, request);
        hold(&mut self.reply, &mut self.reply_len, reply);
        (REPLY, reply.len())
    }

    /// Keeps the request and C. All else stays.
    fn wait(&mut self, packet: &Packet, octets: &[u8]) -> Numbered {
        self.stage = Waiting;
        self.authenticator_challenge = packet.challenge;
        hold(&mut self.request, &mut self.request_len, octets);
        (NEEDS_CREDENTIALS, 0)
    }

    fn name(&self) -> &[u8] {
        held(&self.name, self.name_len)
    }
}

/// Who answers a challenge.
struct Credentials<'a> {
    name: &'a [u8],
    password_hash: &'a Octets16,
}

impl Credentials<'_> {
    /// Writes the Response and gives n and the string it calls for, or answers 20.
    fn write(
        &self,
        id: Identifier,
        chapid: ChapId,
        challenge: &Octets16,
        random: &Octets16,
        reply: &mut [u8],
    ) -> Result<(usize, AuthenticatorString), u8> {
        let user = mschap::user(self.name);
        let challenge_hash = mschap::hash_challenges(random, challenge, user);
        let response = mschap::respond(&challenge_hash, self.password_hash);
        let n = packet::write_response(id, chapid, random, &response, self.name, reply)?;
        let expected = mschap::sign(self.password_hash, &response, &challenge_hash);
        Ok((n, expected))
    }
}

fn is_request(kind: Kind) -> bool {
    matches!(
        kind,
        Kind::Challenge | Kind::SuccessRequest | Kind::FailureRequest | Kind::RetryRequest
    )
}
