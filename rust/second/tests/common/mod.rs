//! What the tests share: hex, a small generator, packets written out by hand, and calls that check
//! the promises every call makes (document 01, "What a call answers").
#![allow(dead_code)]

use second::*;

pub const HASH: Octets16 = *b"hash of password";
pub const AUTHENTICATOR: Octets16 = *b"authenticator-16";
pub const RANDOM: Octets16 = *b"random-random-16";
pub const FRESH: Octets16 = *b"fresh-fresh-fr16";
pub const ROOM: usize = 400;
const PATTERN: u8 = 0xa5;

pub fn hex(text: &str) -> Vec<u8> {
    let digits: Vec<u8> = text
        .bytes()
        .filter(|octet| !octet.is_ascii_whitespace())
        .collect();
    let digit = |octet: u8| (octet as char).to_digit(16).expect("hex") as u8;
    digits
        .chunks(2)
        .map(|pair| digit(pair[0]) << 4 | digit(pair[1]))
        .collect()
}

pub fn fixed<const N: usize>(octets: &[u8]) -> [u8; N] {
    octets.try_into().expect("size")
}

pub fn units(password: &str) -> Vec<u16> {
    password.encode_utf16().collect()
}

/// xorshift64*: the same numbers at every run.
pub struct Random(pub u64);

impl Random {
    pub fn next(&mut self) -> u64 {
        self.0 ^= self.0 >> 12;
        self.0 ^= self.0 << 25;
        self.0 ^= self.0 >> 27;
        self.0.wrapping_mul(0x2545f4914f6cdd1d)
    }

    pub fn below(&mut self, bound: usize) -> usize {
        (self.next() >> 11) as usize % bound
    }

    pub fn octets(&mut self, length: usize) -> Vec<u8> {
        (0..length).map(|_| self.next() as u8).collect()
    }

    pub fn array<const N: usize>(&mut self) -> [u8; N] {
        std::array::from_fn(|_| self.next() as u8)
    }
}

// Packets put together from their parts, without the writers under test.

pub fn long(code: u8, id: u8, op: u8, chapid: u8, rest: &[u8]) -> Vec<u8> {
    let length = 9 + rest.len() as u16;
    let mut packet = vec![code, id];
    packet.extend(length.to_be_bytes());
    packet.extend([26, op, chapid]);
    packet.extend((length - 5).to_be_bytes());
    packet.extend(rest);
    packet
}

pub fn challenge(id: u8, chapid: u8, challenge: &Octets16, name: &[u8]) -> Vec<u8> {
    long(1, id, 1, chapid, &[&[16], &challenge[..], name].concat())
}

pub fn response(id: u8, chapid: u8, peer: &Octets16, nt: &[u8; 24], name: &[u8]) -> Vec<u8> {
    long(
        2,
        id,
        2,
        chapid,
        &[&[49], &peer[..], &[0; 8], nt, &[0], name].concat(),
    )
}

pub fn success(id: u8, chapid: u8, string: &[u8; 20], text: &str) -> Vec<u8> {
    success_and(id, chapid, string, &format!(" M={text}"))
}

/// A Success Request in which that follows the digits.
pub fn success_and(id: u8, chapid: u8, string: &[u8; 20], tail: &str) -> Vec<u8> {
    let digits: String = string.iter().map(|octet| format!("{octet:02X}")).collect();
    long(1, id, 3, chapid, format!("S={digits}{tail}").as_bytes())
}

pub fn failure(id: u8, chapid: u8, code: u64, r: u8, c: &Octets16, text: &str) -> Vec<u8> {
    let digits: String = c.iter().map(|octet| format!("{octet:02X}")).collect();
    long(
        1,
        id,
        4,
        chapid,
        format!("E={code} R={r} C={digits} V=3 M={text}").as_bytes(),
    )
}

pub fn short(code: u8, id: u8, op: u8) -> Vec<u8> {
    vec![code, id, 0, 6, 26, op]
}

pub fn eap(code: u8, id: u8) -> Vec<u8> {
    vec![code, id, 0, 4]
}

pub fn record(kind: u16, body: &[u8]) -> Vec<u8> {
    let length = 4 + body.len() as u16;
    [&length.to_le_bytes()[..], &kind.to_le_bytes(), body].concat()
}

pub fn account(code: u16, hash: &Octets16, name: &[u8]) -> Vec<u8> {
    record(1, &[&code.to_le_bytes()[..], hash, name].concat())
}

/// Octets, and zeros up to the size of the array.
pub fn padded<const N: usize>(octets: &[u8]) -> [u8; N] {
    let mut out = [0; N];
    out[..octets.len()].copy_from_slice(octets);
    out
}

/// The authenticator string that document 01 defines, from the peer's other fields.
pub fn defined_string(peer: &Peer) -> [u8; 20] {
    let name = &peer.name[..usize::from(peer.name_len).min(256)];
    let user = mschap::user_of(name).unwrap();
    let (own, other) = (&peer.peer_challenge, &peer.authenticator_challenge);
    let nt = mschap::nt_response(other, own, user, &peer.password_hash).unwrap();
    mschap::authenticator(&peer.password_hash, &nt, own, other, user).unwrap()
}

// Calls, checked: a refusal changes no state and no octet and has n = 0; any other answer leaves
// the buffer from n on as it was. They give the number and the octets written.

pub type Answer = (u8, Vec<u8>);

fn written((number, n): Numbered, unchanged: bool, buffer: &[u8]) -> Answer {
    if number >= 10 {
        assert!(unchanged, "a refusal changed the state");
        assert_eq!(n, 0);
    }
    assert!(n <= buffer.len());
    assert!(
        buffer[n..].iter().all(|&octet| octet == PATTERN),
        "octets after n changed"
    );
    (number, buffer[..n].to_vec())
}

/// Where the text lies: after the first ` M=` of a Success or Failure Request, or at its end.
pub fn text_of(packet: &[u8]) -> Place {
    let [1, _, high, low, 26, 3 | 4, ..] = *packet else {
        return (0, 0);
    };
    let length = usize::from(u16::from_be_bytes([high, low]));
    let mut threes = packet[9..length].windows(3);
    let tag = threes.position(|octets| octets == b" M=");
    let start = tag.map_or(length, |at| 9 + at + 3);
    (start, length - start)
}

/// The text's place is checked too: 0 and 0 at a refusal.
pub fn step_in(peer: &mut Peer, packet: &[u8], random: &Octets16, room: usize) -> Answer {
    let (before, mut buffer) = (peer.clone(), vec![PATTERN; room]);
    let (answer, text) = peer.step(packet, random, &mut buffer);
    let refused = answer.0 >= 10;
    assert_eq!(text, if refused { (0, 0) } else { text_of(packet) });
    written(answer, *peer == before, &buffer)
}

pub fn step(peer: &mut Peer, packet: &[u8]) -> Answer {
    step_in(peer, packet, &RANDOM, ROOM)
}

pub fn supply_with(
    peer: &mut Peer,
    name: &[u8],
    hash: &Octets16,
    random: &Octets16,
    room: usize,
) -> Answer {
    let (before, mut buffer) = (peer.clone(), vec![PATTERN; room]);
    let answer = peer.supply(name, hash, random, &mut buffer);
    written(answer, *peer == before, &buffer)
}

pub fn supply_in(peer: &mut Peer, name: &[u8], hash: &Octets16, room: usize) -> Answer {
    supply_with(peer, name, hash, &RANDOM, room)
}

pub fn give_up(peer: &mut Peer) -> Answer {
    let before = peer.clone();
    let answer = peer.give_up();
    written(answer, *peer == before, &[])
}

pub fn start_in(server: &mut Server, id: u8, name: &[u8], retries: u64, room: usize) -> Answer {
    let (before, mut buffer) = (server.clone(), vec![PATTERN; room]);
    let answer = server.start(Identifier(id), &AUTHENTICATOR, name, retries, &mut buffer);
    written(answer, *server == before, &buffer)
}

pub fn packet_in(
    server: &mut Server,
    packet: &[u8],
    table: &[u8],
    fresh: &Octets16,
    room: usize,
) -> Answer {
    let (before, mut buffer) = (server.clone(), vec![PATTERN; room]);
    let answer = server.packet(packet, table, fresh, &mut buffer);
    written(answer, *server == before, &buffer)
}

pub fn packet(server: &mut Server, packet: &[u8], table: &[u8]) -> Answer {
    packet_in(server, packet, table, &FRESH, ROOM)
}

pub fn resend_in(server: &Server, room: usize) -> Answer {
    let mut buffer = vec![PATTERN; room];
    let answer = server.resend(&mut buffer);
    written(answer, true, &buffer)
}

/// A writer's answer for a buffer of `room` octets.
pub fn write_in(room: usize, write: impl Fn(&mut [u8]) -> Result<usize, u8>) -> Answer {
    let mut buffer = vec![PATTERN; room];
    let answer = match write(&mut buffer) {
        Ok(n) => (0, n),
        Err(number) => (number, 0),
    };
    written(answer, true, &buffer)
}
