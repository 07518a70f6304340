//! Packets and tables put together from their parts, well formed and not.

use second::{mschap, Octets16, Peer, Place};

use crate::random::Random;

/// A packet with MS-CHAPv2-ID and MS-Length: the first four rows of document 01's table.
pub fn long(code: u8, id: u8, op: u8, chapid: u8, rest: &[u8]) -> Vec<u8> {
    let mut packet = vec![code, id, 0, 0, 26, op, chapid, 0, 0];
    packet.extend(rest);
    set_lengths(&mut packet);
    packet
}

/// L is the whole packet, and MS-Length goes with it.
pub fn set_lengths(packet: &mut [u8]) {
    set_length(packet);
    if packet.len() >= 9 {
        let ms_length = (packet.len() - 5) as u16;
        packet[7..9].copy_from_slice(&ms_length.to_be_bytes());
    }
}

/// L is the whole packet.
pub fn set_length(packet: &mut [u8]) {
    if packet.len() >= 4 {
        let length = packet.len() as u16;
        packet[2..4].copy_from_slice(&length.to_be_bytes());
    }
}

pub fn challenge(id: u8, chapid: u8, challenge: &Octets16, name: &[u8]) -> Vec<u8> {
    long(1, id, 1, chapid, &[&[16], &challenge[..], name].concat())
}

pub fn response(id: u8, chapid: u8, own: &Octets16, nt: &[u8; 24], name: &[u8]) -> Vec<u8> {
    let rest = [&[49], &own[..], &[0; 8], nt, &[0], name].concat();
    long(2, id, 2, chapid, &rest)
}

pub fn success(id: u8, chapid: u8, string: &[u8; 20], text: &[u8]) -> Vec<u8> {
    let message = format!("S={} M=", upper_hex(string));
    long(1, id, 3, chapid, &[message.as_bytes(), text].concat())
}

/// A Success Request whose message ends with its digits.
pub fn bare_success(id: u8, chapid: u8, string: &[u8; 20]) -> Vec<u8> {
    long(
        1,
        id,
        3,
        chapid,
        format!("S={}", upper_hex(string)).as_bytes(),
    )
}

pub fn failure(id: u8, chapid: u8, code: u64, r: u8, c: &Octets16, text: &[u8]) -> Vec<u8> {
    let message = format!("E={code} R={r} C={} V=3 M=", upper_hex(c));
    long(1, id, 4, chapid, &[message.as_bytes(), text].concat())
}

pub fn short(code: u8, id: u8, op: u8) -> Vec<u8> {
    vec![code, id, 0, 6, 26, op]
}

pub fn eap(code: u8, id: u8) -> Vec<u8> {
    vec![code, id, 0, 4]
}

/// Where the text lies in a packet that can be read: after the first ` M=` of a Success or Failure
/// Request, or at its end.
pub fn text_in(packet: &[u8]) -> Place {
    let [1, _, high, low, _, 3 | 4, ..] = *packet else {
        return (0, 0);
    };
    let length = usize::from(u16::from_be_bytes([high, low]));
    let mut threes = packet[9..length].windows(3);
    let tag = threes.position(|octets| octets == b" M=");
    let start = tag.map_or(length, |at| 9 + at + 3);
    (start, length - start)
}

pub fn upper_hex(octets: &[u8]) -> String {
    octets.iter().map(|octet| format!("{octet:02X}")).collect()
}

/// Who logs in, and to what.
#[derive(Clone)]
pub struct Exchange {
    pub name: Vec<u8>,
    pub hash: Octets16,
    /// The authenticator challenge and the peer challenge.
    pub theirs: Octets16,
    pub own: Octets16,
}

impl Exchange {
    pub fn random(random: &mut Random) -> Exchange {
        Exchange {
            name: any_name(random),
            hash: random.array(),
            theirs: random.array(),
            own: random.array(),
        }
    }

    /// What a peer's last Response was made of.
    pub fn of(peer: &Peer) -> Exchange {
        let length = usize::from(peer.name_len).min(peer.name.len());
        Exchange {
            name: peer.name[..length].to_vec(),
            hash: peer.password_hash,
            theirs: peer.authenticator_challenge,
            own: peer.peer_challenge,
        }
    }

    /// The name after its first backslash.
    pub fn user(&self) -> &[u8] {
        mschap::user_of(&self.name).expect("names are at most 256 octets here")
    }

    pub fn nt_response(&self) -> [u8; 24] {
        mschap::nt_response(&self.theirs, &self.own, self.user(), &self.hash).expect("a short name")
    }

    /// The string that the server is to show.
    pub fn string(&self) -> [u8; 20] {
        let nt = self.nt_response();
        mschap::authenticator(&self.hash, &nt, &self.own, &self.theirs, self.user())
            .expect("a short name")
    }

    pub fn response(&self, id: u8, chapid: u8) -> Vec<u8> {
        response(id, chapid, &self.own, &self.nt_response(), &self.name)
    }
}

/// Names of all sizes, short ones mostly, with and without backslashes.
pub fn any_name(random: &mut Random) -> Vec<u8> {
    let length = match random.below(16) {
        0 => 0,
        1 => 256,
        2 => 255,
        3 => random.below(257),
        _ => 1 + random.below(12),
    };
    let mut name: Vec<u8> = (0..length).map(|_| random.pick(b"abcdeFRZ\xfc7")).collect();
    for _ in 0..random.below(3) {
        if !name.is_empty() {
            let at = random.below(name.len());
            name[at] = b'\\';
        }
    }
    name
}

/// What may stand at the end of a request: now and then so long that L is about 1,020.
fn any_text(random: &mut Random) -> Vec<u8> {
    if random.once_in(12) {
        let length = 950 + random.below(50);
        return random.octets(length);
    }
    any_name(random)
}

/// A packet of any row, or none, with small numbers that often meet those of a state.
pub fn any_packet(random: &mut Random) -> Vec<u8> {
    let (id, chapid) = (random.below(4) as u8, random.below(4) as u8);
    let challenge_octets = [random.below(2) as u8; 16];
    let (name, text) = (any_name(random), any_text(random));
    let code = random.pick(&[0, 646, 647, 648, 649, 691, 9_999_999_999]);
    let mut packet = match random.below(12) {
        0 | 1 => challenge(id, chapid, &challenge_octets, &text),
        2 => response(id, chapid, &random.array(), &random.array(), &name),
        3 => success(id, chapid, &random.array(), &text),
        4 => failure(id, chapid, code, 0, &random.array(), &text),
        5 => failure(id, chapid, code, 1, &random.array(), &text),
        6 => short(2, id, 3),
        7 => short(2, id, 4),
        8 => eap(3, id),
        9 => eap(4, id),
        10 => bare_success(id, chapid, &random.array()),
        _ => name,
    };
    if random.once_in(4) {
        mutate(random, &mut packet);
    }
    packet
}

/// One change: an octet, an end cut off, padding, or another length told.
pub fn mutate(random: &mut Random, packet: &mut Vec<u8>) {
    if packet.is_empty() {
        return;
    }
    let at = random.below(packet.len());
    match random.below(8) {
        0 => packet.truncate(at),
        1 => {
            let size = 1 + random.below(20);
            packet.extend(random.octets(size));
        }
        2 => {
            packet.truncate(at);
            set_lengths(packet);
        }
        3 => {
            let octet = random.octet();
            packet.insert(at, octet);
            set_lengths(packet);
        }
        4 => packet[at] = random.octet(),
        5 => packet[at] = random.pick(b"0123456789ABCDEFabcdef= SMERCV"),
        _ => packet[at] ^= 1 << random.below(8),
    }
}

/// A record of the account table.
pub fn record(kind: u16, body: &[u8]) -> Vec<u8> {
    let length = 4 + body.len() as u16;
    [&length.to_le_bytes()[..], &kind.to_le_bytes(), body].concat()
}

pub fn account(code: u16, hash: &Octets16, name: &[u8]) -> Vec<u8> {
    record(1, &[&code.to_le_bytes()[..], hash, name].concat())
}

pub fn any_code(random: &mut Random) -> u16 {
    random.pick(&[0, 0, 0, 646, 647, 648, 649])
}
