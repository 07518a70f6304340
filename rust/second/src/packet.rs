//! The packet forms of document 01: one reader, and one writer for each row of the table.

use crate::mschap::{AuthenticatorString, NtResponse};
use crate::number::*;
use crate::{Octets16, MAX_NAME, MAX_PACKET};

/// Octet 1 of a packet.
#[derive(Clone, Copy, PartialEq, Eq, Debug)]
pub struct Identifier(pub u8);

/// MS-CHAPv2-ID, octet 6 of the packets that have one. Never mixed with an [`Identifier`].
#[derive(Clone, Copy, PartialEq, Eq, Debug)]
pub struct ChapId(pub u8);

/// The end for which a packet is read.
#[derive(Clone, Copy, PartialEq, Eq, Debug)]
pub enum End {
    Peer,
    Server,
}

#[derive(Clone, Copy, PartialEq, Eq, Debug)]
pub enum Kind {
    Challenge,
    Response,
    SuccessRequest,
    /// Failure Request with R=0.
    FailureRequest,
    /// Failure Request with R=1.
    RetryRequest,
    SuccessResponse,
    FailureResponse,
    EapSuccess,
    EapFailure,
}

/// Start, counted from the packet's first octet, and length of a part of a packet.
pub type Place = (usize, usize);

/// What was read. Fields that a kind has not are zero.
#[derive(Clone, PartialEq, Eq, Debug)]
pub struct Packet {
    pub kind: Kind,
    pub id: Identifier,
    /// The first four rows of the table.
    pub chapid: ChapId,
    /// L.
    pub length: usize,
    /// The number after `E=` of a Failure Request.
    pub code: u64,
    /// The challenge of a Challenge, the peer challenge of a Response, C of a Failure Request.
    pub challenge: Octets16,
    /// Where it lies, C as its digits.
    pub challenge_at: Place,
    /// The NT-Response of a Response.
    pub response: NtResponse,
    /// The number after `S=` of a Success Request.
    pub string: AuthenticatorString,
    /// Where the one or the other lies, the number as its digits.
    pub response_at: Place,
    /// The name (Challenge, Response) or the text after `M=` (Success and Failure Request); at L
    /// where a Success message ends with its digits.
    pub tail: Place,
}

impl Packet {
    /// The text after `M=`; 0 and 0 for a packet that has none.
    pub fn text(&self) -> Place {
        match self.kind {
            Kind::SuccessRequest | Kind::FailureRequest | Kind::RetryRequest => self.tail,
            _ => (0, 0),
        }
    }
}

const HEADER: usize = 4;
const SHORT: usize = 6;
const MESSAGE: usize = 9;
const CHALLENGE_NAME: usize = 26;
const RESPONSE_NAME: usize = 59;

const REQUEST: u8 = 1;
const RESPONSE: u8 = 2;
const EAP_SUCCESS: u8 = 3;
const EAP_FAILURE: u8 = 4;
const TYPE: u8 = 26;
const OP_CHALLENGE: u8 = 1;
const OP_RESPONSE: u8 = 2;
const OP_SUCCESS: u8 = 3;
const OP_FAILURE: u8 = 4;

/// The longest reply of the peer, a Response with a name of 256 octets.
pub const MAX_RESPONSE: usize = RESPONSE_NAME + MAX_NAME;
/// The longest request of the server, a Challenge with a name of 256 octets.
pub const MAX_CHALLENGE: usize = CHALLENGE_NAME + MAX_NAME;

/// Reads a packet, or answers the first of 10 to 17 that holds. Octets after L are padding.
pub fn read(end: End, lent: &[u8]) -> Result<Packet, u8> {
    let packet = framed(lent)?;
    let kind = kind_of(end, packet)?;
    check_ms_length(kind, packet)?;
    form_of(kind, packet).ok_or(BAD_FORM)
}

/// The octets up to L, or 10 to 12.
pub fn framed(lent: &[u8]) -> Result<&[u8], u8> {
    if lent.len() < HEADER {
        return Err(NO_HEADER);
    }
    let length = usize::from(word(lent, 2));
    if length < HEADER || length > lent.len() {
        return Err(BAD_LENGTH);
    }
    if length > MAX_PACKET {
        return Err(TOO_LONG);
    }
    Ok(&lent[..length])
}

/// The kind by Code, Type and OpCode, or 13 to 15. Every Failure Request is R=0 so far.
fn kind_of(end: End, packet: &[u8]) -> Result<Kind, u8> {
    let code = packet[0];
    match (end, code) {
        (End::Peer, EAP_SUCCESS) => return Ok(Kind::EapSuccess),
        (End::Peer, EAP_FAILURE) => return Ok(Kind::EapFailure),
        (End::Peer, REQUEST) | (End::Server, RESPONSE) => (),
        _ => return Err(BAD_CODE),
    }
    if packet.get(4) != Some(&TYPE) {
        return Err(BAD_TYPE);
    }
    match (code, packet.get(5)) {
        (REQUEST, Some(&OP_CHALLENGE)) => Ok(Kind::Challenge),
        (REQUEST, Some(&OP_SUCCESS)) => Ok(Kind::SuccessRequest),
        (REQUEST, Some(&OP_FAILURE)) => Ok(Kind::FailureRequest),
        (RESPONSE, Some(&OP_RESPONSE)) => Ok(Kind::Response),
        (RESPONSE, Some(&OP_SUCCESS)) => Ok(Kind::SuccessResponse),
        (RESPONSE, Some(&OP_FAILURE)) => Ok(Kind::FailureResponse),
        _ => Err(BAD_OPCODE),
    }
}

/// 16: the first four packets have MS-Length = L - 5 at 7.
fn check_ms_length(kind: Kind, packet: &[u8]) -> Result<(), u8> {
    let has_ms_length = matches!(
        kind,
        Kind::Challenge | Kind::Response | Kind::SuccessRequest | Kind::FailureRequest
    );
    if !has_ms_length {
        return Ok(());
    }
    if packet.len() < MESSAGE || usize::from(word(packet, 7)) != packet.len() - 5 {
        return Err(BAD_MS_LENGTH);
    }
    Ok(())
}

/// The fields by kind, or `None` where the rest breaks its form.
fn form_of(kind: Kind, packet: &[u8]) -> Option<Packet> {
    match kind {
        Kind::Challenge => challenge_form(packet),
        Kind::Response => response_form(packet),
        Kind::SuccessRequest => success_form(packet),
        Kind::FailureRequest | Kind::RetryRequest => failure_form(packet),
        Kind::SuccessResponse | Kind::FailureResponse => bare_form(kind, packet, SHORT),
        Kind::EapSuccess | Kind::EapFailure => bare_form(kind, packet, HEADER),
    }
}

/// A packet of that kind with all other fields zero.
fn blank(kind: Kind, packet: &[u8], chapid: ChapId) -> Packet {
    Packet {
        kind,
        id: Identifier(packet[1]),
        chapid,
        length: packet.len(),
        code: 0,
        challenge: [0; 16],
        challenge_at: (0, 0),
        response: [0; 24],
        string: [0; 20],
        response_at: (0, 0),
        tail: (0, 0),
    }
}

fn bare_form(kind: Kind, packet: &[u8], length: usize) -> Option<Packet> {
    (packet.len() == length).then(|| blank(kind, packet, ChapId(0)))
}

fn challenge_form(packet: &[u8]) -> Option<Packet> {
    if packet.len() <= CHALLENGE_NAME || packet[9] != 16 {
        return None;
    }
    Some(Packet {
        challenge: octets(packet, 10),
        challenge_at: (10, 16),
        tail: (CHALLENGE_NAME, packet.len() - CHALLENGE_NAME),
        ..blank(Kind::Challenge, packet, ChapId(packet[6]))
    })
}

fn response_form(packet: &[u8]) -> Option<Packet> {
    if !(RESPONSE_NAME..=MAX_RESPONSE).contains(&packet.len()) || packet[9] != 49 {
        return None;
    }
    if packet[26..34] != [0; 8] || packet[58] != 0 {
        return None;
    }
    Some(Packet {
        challenge: octets(packet, 10),
        challenge_at: (10, 16),
        response: octets(packet, 34),
        response_at: (34, 24),
        tail: (RESPONSE_NAME, packet.len() - RESPONSE_NAME),
        ..blank(Kind::Response, packet, ChapId(packet[6]))
    })
}

/// `S=`, 40 hex digits in upper case; then nothing, or ` M=` and any octets or none.
fn success_form(packet: &[u8]) -> Option<Packet> {
    let mut text = Text(&packet[MESSAGE..]);
    text.tag(b"S=")?;
    let string = text.hex(upper_digit)?;
    if !text.0.is_empty() {
        text.tag(b" M=")?;
    }
    Some(Packet {
        string,
        response_at: (MESSAGE + 2, 40),
        tail: text.rest_of(packet),
        ..blank(Kind::SuccessRequest, packet, ChapId(packet[6]))
    })
}

/// `E=` code, ` R=` 0 or 1, ` C=` 32 hex digits of either case, ` V=` a number that is 3, ` M=`,
/// any octets or none.
fn failure_form(packet: &[u8]) -> Option<Packet> {
    let mut text = Text(&packet[MESSAGE..]);
    text.tag(b"E=")?;
    let code = text.decimal()?;
    text.tag(b" R=")?;
    let kind = match text.octet()? {
        b'0' => Kind::FailureRequest,
        b'1' => Kind::RetryRequest,
        _ => return None,
    };
    text.tag(b" C=")?;
    let (c, _) = text.rest_of(packet);
    let challenge = text.hex(either_digit)?;
    text.tag(b" V=")?;
    if text.decimal()? != 3 {
        return None;
    }
    text.tag(b" M=")?;
    Some(Packet {
        code,
        challenge,
        challenge_at: (c, 32),
        tail: text.rest_of(packet),
        ..blank(kind, packet, ChapId(packet[6]))
    })
}

/// What is left of a message.
struct Text<'a>(&'a [u8]);

impl Text<'_> {
    /// Where it lies in its packet.
    fn rest_of(&self, packet: &[u8]) -> Place {
        (packet.len() - self.0.len(), self.0.len())
    }

    fn tag(&mut self, tag: &[u8]) -> Option<()> {
        self.0 = self.0.strip_prefix(tag)?;
        Some(())
    }

    fn octet(&mut self) -> Option<u8> {
        let (&first, rest) = self.0.split_first()?;
        self.0 = rest;
        Some(first)
    }

    /// One to ten digits.
    fn decimal(&mut self) -> Option<u64> {
        let count = self
            .0
            .iter()
            .take_while(|octet| octet.is_ascii_digit())
            .count();
        if !(1..=10).contains(&count) {
            return None;
        }
        let (digits, rest) = self.0.split_at(count);
        self.0 = rest;
        Some(
            digits
                .iter()
                .fold(0, |number, digit| number * 10 + u64::from(digit - b'0')),
        )
    }

    /// Two digits for each octet.
    fn hex<const N: usize>(&mut self, digit: fn(u8) -> Option<u8>) -> Option<[u8; N]> {
        let (digits, rest) = self.0.split_at_checked(2 * N)?;
        self.0 = rest;
        let mut octets = [0; N];
        for (octet, pair) in octets.iter_mut().zip(digits.chunks_exact(2)) {
            *octet = digit(pair[0])? << 4 | digit(pair[1])?;
        }
        Some(octets)
    }
}

fn upper_digit(digit: u8) -> Option<u8> {
    match digit {
        b'0'..=b'9' => Some(digit - b'0'),
        b'A'..=b'F' => Some(digit - b'A' + 10),
        _ => None,
    }
}

fn either_digit(digit: u8) -> Option<u8> {
    upper_digit(digit.to_ascii_uppercase())
}

/// The big-endian number of two octets.
fn word(octets: &[u8], at: usize) -> u16 {
    u16::from_be_bytes([octets[at], octets[at + 1]])
}

/// N octets out of a packet known to be long enough.
fn octets<const N: usize>(packet: &[u8], at: usize) -> [u8; N] {
    let mut out = [0; N];
    out.copy_from_slice(&packet[at..at + N]);
    out
}

// The writers. Each answers Ok(n) with n = L, or 23 for what has no form, or 20; the octets of
// `out` from n on, and all of them at a refusal, stay as they were.

/// A Challenge: the name has 1 to 994 octets.
pub fn write_challenge(
    id: Identifier,
    chapid: ChapId,
    challenge: &Octets16,
    name: &[u8],
    out: &mut [u8],
) -> Result<usize, u8> {
    if name.is_empty() {
        return Err(BAD_ARGUMENT);
    }
    let head = Head {
        code: REQUEST,
        id,
        op: OP_CHALLENGE,
    };
    let mut writer = Writer::long(head, chapid, CHALLENGE_NAME + name.len(), out)?;
    writer.put(&[16]);
    writer.put(challenge);
    writer.put(name);
    Ok(writer.at)
}

/// A Response: the name has 0 to 256 octets.
pub fn write_response(
    id: Identifier,
    chapid: ChapId,
    peer_challenge: &Octets16,
    response: &NtResponse,
    name: &[u8],
    out: &mut [u8],
) -> Result<usize, u8> {
    if name.len() > MAX_NAME {
        return Err(BAD_ARGUMENT);
    }
    let head = Head {
        code: RESPONSE,
        id,
        op: OP_RESPONSE,
    };
    let mut writer = Writer::long(head, chapid, RESPONSE_NAME + name.len(), out)?;
    writer.put(&[49]);
    writer.put(peer_challenge);
    writer.put(&[0; 8]);
    writer.put(response);
    writer.put(&[0]);
    writer.put(name);
    Ok(writer.at)
}

/// A Success Request with the text after `M=`.
pub fn write_success_request(
    id: Identifier,
    chapid: ChapId,
    string: &AuthenticatorString,
    text: &[u8],
    out: &mut [u8],
) -> Result<usize, u8> {
    let length = MESSAGE + 45 + text.len();
    let mut writer = Writer::long(
        Head {
            code: REQUEST,
            id,
            op: OP_SUCCESS,
        },
        chapid,
        length,
        out,
    )?;
    writer.put(b"S=");
    writer.put_hex(string);
    writer.put(b" M=");
    writer.put(text);
    Ok(writer.at)
}

/// A Failure Request with the text after `M=`: the code has at most ten digits, R is 0 or 1.
pub fn write_failure_request(
    id: Identifier,
    chapid: ChapId,
    code: u64,
    retry: u8,
    challenge: &Octets16,
    text: &[u8],
    out: &mut [u8],
) -> Result<usize, u8> {
    if code > 9_999_999_999 || retry > 1 {
        return Err(BAD_ARGUMENT);
    }
    let digits = code.checked_ilog10().map_or(1, |log| log as usize + 1);
    let length = MESSAGE + 48 + digits + text.len();
    let mut writer = Writer::long(
        Head {
            code: REQUEST,
            id,
            op: OP_FAILURE,
        },
        chapid,
        length,
        out,
    )?;
    writer.put(b"E=");
    writer.put_decimal(code, digits);
    writer.put(b" R=");
    writer.put(&[b'0' + retry]);
    writer.put(b" C=");
    writer.put_hex(challenge);
    writer.put(b" V=3 M=");
    writer.put(text);
    Ok(writer.at)
}

pub fn write_success_response(id: Identifier, out: &mut [u8]) -> Result<usize, u8> {
    write_bare(&[RESPONSE, id.0, 0, SHORT as u8, TYPE, OP_SUCCESS], out)
}

pub fn write_failure_response(id: Identifier, out: &mut [u8]) -> Result<usize, u8> {
    write_bare(&[RESPONSE, id.0, 0, SHORT as u8, TYPE, OP_FAILURE], out)
}

pub fn write_eap_success(id: Identifier, out: &mut [u8]) -> Result<usize, u8> {
    write_bare(&[EAP_SUCCESS, id.0, 0, HEADER as u8], out)
}

pub fn write_eap_failure(id: Identifier, out: &mut [u8]) -> Result<usize, u8> {
    write_bare(&[EAP_FAILURE, id.0, 0, HEADER as u8], out)
}

fn write_bare(packet: &[u8], out: &mut [u8]) -> Result<usize, u8> {
    let out = out.get_mut(..packet.len()).ok_or(NO_ROOM)?;
    out.copy_from_slice(packet);
    Ok(packet.len())
}

/// What tells the first four packets apart.
struct Head {
    code: u8,
    id: Identifier,
    op: u8,
}

/// Room of exactly L octets, and the place of the next one.
struct Writer<'a> {
    out: &'a mut [u8],
    at: usize,
}

impl<'a> Writer<'a> {
    /// Writes up to MS-Length, or answers 23 for L over 1,020, or 20.
    fn long(head: Head, chapid: ChapId, length: usize, out: &'a mut [u8]) -> Result<Self, u8> {
        if length > MAX_PACKET {
            return Err(BAD_ARGUMENT);
        }
        let out = out.get_mut(..length).ok_or(NO_ROOM)?;
        let mut writer = Writer { out, at: 0 };
        let [high, low] = (length as u16).to_be_bytes();
        let [ms_high, ms_low] = (length as u16 - 5).to_be_bytes();
        writer.put(&[
            head.code, head.id.0, high, low, TYPE, head.op, chapid.0, ms_high, ms_low,
        ]);
        Ok(writer)
    }

    fn put(&mut self, octets: &[u8]) {
        self.out[self.at..self.at + octets.len()].copy_from_slice(octets);
        self.at += octets.len();
    }

    /// Upper case.
    fn put_hex(&mut self, octets: &[u8]) {
        const DIGITS: &[u8; 16] = b"0123456789ABCDEF";
        for octet in octets {
            let (high, low) = (usize::from(octet >> 4), usize::from(octet & 15));
            self.put(&[DIGITS[high], DIGITS[low]]);
        }
    }

    fn put_decimal(&mut self, mut number: u64, digits: usize) {
        for digit in self.out[self.at..self.at + digits].iter_mut().rev() {
            *digit = b'0' + (number % 10) as u8;
            number /= 10;
        }
        self.at += digits;
    }
}
