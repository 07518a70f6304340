//! The server's moves: document 01's section of that name.

use crate::accounts;
use crate::mschap::{self, AuthenticatorString};
use crate::number::*;
use crate::packet::{self, ChapId, End, Identifier, Kind, Packet, MAX_CHALLENGE};
use crate::{held, hold, numbered, put, Numbered, Octets16, MAX_NAME, MAX_RETRIES};

/// The stages of source document 000, and BEGIN.
#[derive(Clone, Copy, PartialEq, Eq, Debug)]
pub enum ServerStage {
    Begin,
    ChallengeSent,
    SuccessRequestSent,
    FailureRequestSent,
    Success,
    Failed,
}

use ServerStage::*;

/// The state of a server. Any value may be handed in: a length past its array counts as the
/// array's length. A move changes only the fields it names.
#[derive(Clone, PartialEq, Eq, Debug)]
pub struct Server {
    pub stage: ServerStage,
    /// Both numbers of the outstanding request.
    pub id: Identifier,
    pub chapid: ChapId,
    /// The outstanding challenge.
    pub challenge: Octets16,
    pub retries: u8,
    /// The outstanding request.
    pub request: [u8; MAX_CHALLENGE],
    pub request_len: u16,
}

/// ERROR_AUTHENTICATION_FAILURE: a wrong Response, or no such account.
const WRONG: u16 = 691;

/// What is due for a Response.
enum Verdict {
    Right(AuthenticatorString),
    /// Right, but the account's code is not 0.
    Barred(u16),
    Wrong,
}

impl Server {
    /// A fresh server in BEGIN.
    #[allow(clippy::new_without_default)]
    pub fn new() -> Server {
        Server {
            stage: Begin,
            id: Identifier(0),
            chapid: ChapId(0),
            challenge: [0; 16],
            retries: 0,
            request: [0; MAX_CHALLENGE],
            request_len: 0,
        }
    }

    /// Writes the Challenge; 19 outside BEGIN, then 23, then 20.
    pub fn start(
        &mut self,
        id: Identifier,
        challenge: &Octets16,
        name: &[u8],
        retries: u64,
        reply: &mut [u8],
    ) -> Numbered {
        numbered(self.challenge(id, challenge, name, retries, reply))
    }

    /// Takes a packet. The fresh octets are used only as C of a Failure Request.
    pub fn packet(
        &mut self,
        lent: &[u8],
        table: &[u8],
        fresh: &Octets16,
        reply: &mut [u8],
    ) -> Numbered {
        numbered(self.take(lent, table, fresh, reply))
    }

    /// Writes the outstanding request again.
    pub fn resend(&self, reply: &mut [u8]) -> Numbered {
        match self.stage {
            ChallengeSent | SuccessRequestSent | FailureRequestSent => {
                numbered(put(reply, held(&self.request, self.request_len)))
            }
            Begin | Success | Failed => (NOT_TAKEN, 0),
        }
    }

    fn challenge(
        &mut self,
        id: Identifier,
        challenge: &Octets16,
        name: &[u8],
        retries: u64,
        reply: &mut [u8],
    ) -> Result<Numbered, u8> {
        if self.stage != Begin {
            return Err(NOT_TAKEN);
        }
        if name.len() > MAX_NAME || retries > MAX_RETRIES {
            return Err(BAD_ARGUMENT);
        }
        // The writer refuses an empty name.
        let n = packet::write_challenge(id, ChapId(id.0), challenge, name, reply)?;
        self.challenge = *challenge;
        self.retries = retries as u8;
        Ok(self.sent(ChallengeSent, id, &reply[..n]))
    }

    /// In the order of document 01: 10 to 17, 19, 18, 21, 22, 20.
    fn take(
        &mut self,
        lent: &[u8],
        table: &[u8],
        fresh: &Octets16,
        reply: &mut [u8],
    ) -> Result<Numbered, u8> {
        let packet = packet::read(End::Server, lent)?;
        match (self.stage, packet.kind) {
            (ChallengeSent, Kind::Response) => {
                self.check_identifier(&packet)?;
                let (start, length) = packet.tail;
                match self.judge(&packet, &lent[start..start + length], table)? {
                    Verdict::Right(string) => self.accept(&string, reply),
                    Verdict::Barred(code) => self.fail(code, false, fresh, reply),
                    Verdict::Wrong => self.fail(WRONG, self.retries > 0, fresh, reply),
                }
            }
            (SuccessRequestSent, Kind::SuccessResponse) => {
                self.check_identifier(&packet)?;
                let n = packet::write_eap_success(packet.id, reply)?;
                self.stage = Success;
                Ok((AUTHENTICATED, n))
            }
            (FailureRequestSent, Kind::FailureResponse) => {
                self.check_identifier(&packet)?;
                let n = packet::write_eap_failure(packet.id, reply)?;
                self.stage = Failed;
                Ok((ENDED, n))
            }
            _ => Err(NOT_TAKEN),
        }
    }

    /// 18: Identifier, or a Response's MS-CHAPv2-ID, differs from the outstanding one.
    fn check_identifier(&self, packet: &Packet) -> Result<(), u8> {
        let other_chapid = packet.kind == Kind::Response && packet.chapid != self.chapid;
        if packet.id != self.id || other_chapid {
            return Err(WRONG_IDENTIFIER);
        }
        Ok(())
    }

    /// Right exactly when the user has an account and the NT-Response is the one computed from
    /// its hash; or 21. The account's code is looked at only then.
    fn judge(&self, packet: &Packet, name: &[u8], table: &[u8]) -> Result<Verdict, u8> {
        let user = mschap::user(name);
        let Some(account) = accounts::find(table, user)? else {
            return Ok(Verdict::Wrong);
        };
        let challenge_hash = mschap::hash_challenges(&packet.challenge, &self.challenge, user);
        if packet.response != mschap::respond(&challenge_hash, &account.hash) {
            return Ok(Verdict::Wrong);
        }
        if account.code != 0 {
            return Ok(Verdict::Barred(account.code));
        }
        Ok(Verdict::Right(mschap::sign(
            &account.hash,
            &packet.response,
            &challenge_hash,
        )))
    }

    fn accept(&mut self, string: &AuthenticatorString, reply: &mut [u8]) -> Result<Numbered, u8> {
        let (id, chapid) = self.next_numbers();
        let n = packet::write_success_request(id, chapid, string, b"", reply)?;
        Ok(self.sent(SuccessRequestSent, id, &reply[..n]))
    }

    /// A Failure Request, whose C becomes the outstanding challenge; or 22, or 20. With R=1 the
    /// stage is kept and a retry used up.
    fn fail(
        &mut self,
        code: u16,
        retry: bool,
        fresh: &Octets16,
        reply: &mut [u8],
    ) -> Result<Numbered, u8> {
        if *fresh == self.challenge {
            return Err(STALE_CHALLENGE);
        }
        let (id, chapid) = self.next_numbers();
        let r = u8::from(retry);
        let n = packet::write_failure_request(id, chapid, code.into(), r, fresh, b"", reply)?;
        self.challenge = *fresh;
        self.retries -= r;
        let stage = if retry {
            self.stage
        } else {
            FailureRequestSent
        };
        Ok(self.sent(stage, id, &reply[..n]))
    }

    /// Every later request has the next Identifier; the server writes both numbers equal.
    fn next_numbers(&self) -> (Identifier, ChapId) {
        let next = self.id.0.wrapping_add(1);
        (Identifier(next), ChapId(next))
    }

    /// A request sent is the outstanding one.
    fn sent(&mut self, stage: ServerStage, id: Identifier, request: &[u8]) -> Numbered {
        self.stage = stage;
        self.id = id;
        self.chapid = ChapId(id.0);
        hold(&mut self.request, &mut self.request_len, request);
        (REPLY, request.len())
    }
}
