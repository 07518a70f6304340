//! The published vectors, and conversations that wpa_supplicant had with hostapd and FreeRADIUS:
//! both programs agree, and with what was published and captured.

use second::Octets16;

use crate::call::Call;
use crate::layout::{at, PEER, READING, SERVER};
use crate::packets::{account, Exchange};
use crate::pair::{Answer, Difference, Pair, Run};
use crate::random::Random;

const VECTORS: &str = include_str!("../../../second/tests/base.txt");
const CAPTURES: [&str; 2] = [
    include_str!("../../../second/tests/captures.txt"),
    include_str!("../../../second/tests/captures-keys.txt"),
];
const ROOM: usize = 400;

pub fn run(pair: &mut Pair, random: &mut Random) -> Run<()> {
    for line in VECTORS.lines() {
        if !line.is_empty() && !line.starts_with('#') {
            vector(pair, random, line)?;
        }
    }
    for conversation in conversations() {
        every_packet_reads(pair, &conversation)?;
        peer_says_what_was_captured(pair, &conversation)?;
        server_judges_what_was_captured(pair, &conversation)?;
    }
    Ok(())
}

fn expect<T: PartialEq + std::fmt::Debug>(what: &str, got: T, published: T) -> Run<()> {
    if got != published {
        return Err(Difference::new(format!(
            "both differ from what is published\ncase     {what}\nboth     {got:02x?}\npublished {published:02x?}"
        )));
    }
    Ok(())
}

/// A line: name, fields and the expected result, in hex.
fn vector(pair: &mut Pair, random: &mut Random, line: &str) -> Run<()> {
    let mut parts = line.split('|').map(str::trim);
    let name = parts.next().unwrap_or("");
    let fields: Vec<Vec<u8>> = parts.map(unhex).collect();
    let (expected, fields) = fields.split_last().expect("a line has a result");
    let field = |i: usize| &fields[i][..];
    let call = match name {
        "md4" | "hash_hash" => Call::Md4 { data: field(0) },
        "sha1" => Call::Sha1 { data: field(0) },
        "des" => Call::Des {
            key: field(0),
            block: field(1),
        },
        "password_hash" => Call::PasswordHash { units: field(0) },
        "challenge_hash" => return challenge_hash(pair, fields, expected),
        "parity" => return parity(pair, random, field(0), expected),
        "nt_response" => Call::NtResponse {
            authenticator_challenge: field(0),
            peer_challenge: field(1),
            user: field(2),
            hash: field(3),
        },
        "authenticator" => Call::Authenticator {
            hash: field(0),
            nt_response: field(1),
            peer_challenge: field(2),
            authenticator_challenge: field(3),
            user: field(4),
        },
        other => panic!("no such vector: {other}"),
    };
    let (answer, result) = pair.result(call, expected.len())?;
    expect(line, (answer, &result), (Answer::bare(0), expected))
}

/// The first 8 octets of SHA-1 over all three.
fn challenge_hash(pair: &mut Pair, fields: &[Vec<u8>], expected: &[u8]) -> Run<()> {
    let data = fields.concat();
    let (_, digest) = pair.result(Call::Sha1 { data: &data }, 20)?;
    expect("challenge_hash", &digest[..8], expected)
}

/// Seven octets of a hash encipher as the eight octets of the key that they become.
fn parity(pair: &mut Pair, random: &mut Random, seven: &[u8], key: &[u8]) -> Run<()> {
    let hash = [seven, &[0; 9]].concat();
    let (theirs, own): (Octets16, Octets16) = (random.array(), random.array());
    let data = [own, theirs].concat();
    let (_, digest) = pair.result(Call::Sha1 { data: &data }, 20)?;
    let call = Call::NtResponse {
        authenticator_challenge: &theirs,
        peer_challenge: &own,
        user: &[],
        hash: &hash,
    };
    let (_, response) = pair.result(call, 24)?;
    let call = Call::Des {
        key,
        block: &digest[..8],
    };
    let (_, enciphered) = pair.result(call, 8)?;
    expect("parity", &response[..8], &enciphered[..])
}

struct Conversation {
    user: Vec<u8>,
    password: Vec<u8>,
    right: bool,
    /// Identity, Challenge, Response, Success or Failure Request, the reply, EAP Success or Failure;
    /// the last two are missing where another password was asked for.
    packets: Vec<Vec<u8>>,
}

/// A line: user, password, sender and packet; a comment says where a conversation begins.
fn conversations() -> Vec<Conversation> {
    let mut all: Vec<Conversation> = Vec::new();
    for line in CAPTURES.iter().flat_map(|file| file.lines()) {
        if let Some(comment) = line.strip_prefix("# conversation") {
            all.push(Conversation {
                user: Vec::new(),
                password: Vec::new(),
                right: !comment.ends_with("wrong password"),
                packets: Vec::new(),
            });
        } else if !line.is_empty() && !line.starts_with('#') {
            let parts: Vec<&str> = line.split(" | ").collect();
            if parts[2] == "key" {
                continue;
            }
            let last = all.last_mut().expect("a comment comes first");
            last.user = parts[0].as_bytes().to_vec();
            last.password = parts[1].encode_utf16().flat_map(u16::to_le_bytes).collect();
            last.packets.push(unhex(parts[3]));
        }
    }
    assert_eq!(all.len(), 15);
    all
}

impl Conversation {
    fn asked_again(&self) -> bool {
        self.packets.len() == 4
    }

    /// The challenges are those of the captured packets.
    fn exchange(&self, pair: &mut Pair) -> Run<Exchange> {
        let (_, hash) = pair.result(
            Call::PasswordHash {
                units: &self.password,
            },
            16,
        )?;
        let challenge = |packet: &[u8]| packet[10..26].try_into().expect("16 octets");
        Ok(Exchange {
            name: self.user.clone(),
            hash: hash.try_into().expect("16 octets"),
            theirs: challenge(&self.packets[1]),
            own: challenge(&self.packets[2]),
        })
    }
}

/// EAP Identity is not ours to read.
fn every_packet_reads(pair: &mut Pair, conversation: &Conversation) -> Run<()> {
    for (i, packet) in conversation.packets.iter().enumerate() {
        let end = u8::from(i % 2 == 0);
        let (answer, _) = pair.result(Call::Read { end, packet }, READING)?;
        expect("reading", answer.number, if i == 0 { 14 } else { 0 })?;
    }
    Ok(())
}

fn peer_says_what_was_captured(pair: &mut Pair, conversation: &Conversation) -> Run<()> {
    let exchange = conversation.exchange(pair)?;
    let packets = &conversation.packets;
    let call = Call::PeerNew {
        name: &exchange.name,
        hash: &exchange.hash,
    };
    let (_, mut state, _) = pair.try_on(call, &[0; PEER], 0)?;
    let replies: &[(usize, usize)] = if conversation.asked_again() {
        &[(1, 2)]
    } else {
        &[(1, 2), (3, 4)]
    };
    for &(request, reply) in replies {
        let call = Call::PeerStep {
            packet: &packets[request],
            random: &exchange.own,
        };
        let (answer, after, written) = pair.try_on(call, &state, ROOM)?;
        expect(
            "a peer's reply",
            (answer.number, &written),
            (0, &packets[reply]),
        )?;
        state = after;
    }
    let call = Call::PeerStep {
        packet: &packets[packets.len() - 1],
        random: &exchange.own,
    };
    let (answer, _, _) = pair.try_on(call, &state, ROOM)?;
    let number = match conversation {
        _ if conversation.asked_again() => 1,
        Conversation { right: true, .. } => 2,
        _ => 3,
    };
    expect("a peer's end", (answer.number, answer.n), (number, 0))
}

/// By the password that the peer had, every captured Response is right; by another one, the server
/// says what the captured one said.
fn server_judges_what_was_captured(pair: &mut Pair, conversation: &Conversation) -> Run<()> {
    let exchange = conversation.exchange(pair)?;
    let packets = &conversation.packets;
    let (_, fresh_server, _) = pair.try_on(Call::ServerNew, &[0; SERVER], 0)?;
    let call = Call::ServerStart {
        identifier: packets[1][1],
        challenge: &exchange.theirs,
        name: &packets[1][26..],
        retries: u64::from(conversation.asked_again()),
    };
    let (_, started, written) = pair.try_on(call, &fresh_server, ROOM)?;
    expect("a server's Challenge", &written, &packets[1])?;

    let known = account(0, &exchange.hash, exchange.user());
    let (right, request) = judged(pair, &started, &packets[2], &known, &[0; 16])?;
    expect(
        "the stage after a right Response",
        right[at::STAGE],
        SUCCESS_REQUEST_SENT,
    )?;
    if conversation.right {
        return server_ends_as_captured(pair, packets, &right, &request);
    }
    let other = account(0, &[0; 16], exchange.user());
    let c = std::str::from_utf8(&packets[3][C_DIGITS]).expect("digits");
    let (wrong, request) = judged(pair, &started, &packets[2], &other, &unhex(c))?;
    server_ends_as_captured(pair, packets, &wrong, &request)
}

const SUCCESS_REQUEST_SENT: u8 = 2;
/// After an E of three digits.
const C_DIGITS: std::ops::Range<usize> = 21..53;

/// The state after the Response, and the request written.
fn judged(
    pair: &mut Pair,
    state: &[u8],
    packet: &[u8],
    table: &[u8],
    fresh: &[u8],
) -> Run<(Vec<u8>, Vec<u8>)> {
    let call = Call::ServerPacket {
        packet,
        table,
        fresh,
    };
    let (_, after, request) = pair.try_on(call, state, ROOM)?;
    Ok((after, request))
}

/// The request up to the text after M=, or to the digits of a captured Success message that ends
/// there, and the end of the conversation. FreeRADIUS writes C in lower case.
fn server_ends_as_captured(
    pair: &mut Pair,
    packets: &[Vec<u8>],
    state: &[u8],
    request: &[u8],
) -> Run<()> {
    expect("the next Identifier", request[1], packets[3][1])?;
    let common = 9..request.len().min(packets[3].len());
    expect(
        "a server's message",
        &request[common.clone()],
        &packets[3][common].to_ascii_uppercase()[..],
    )?;
    if packets.len() == 4 {
        return Ok(());
    }
    let call = Call::ServerPacket {
        packet: &packets[4],
        table: &[],
        fresh: &[0; 16],
    };
    let (answer, _, last) = pair.try_on(call, state, ROOM)?;
    let number = if packets[5][0] == 3 { 2 } else { 3 };
    expect(
        "a server's end",
        (answer.number, &last),
        (number, &packets[5]),
    )
}

fn unhex(text: &str) -> Vec<u8> {
    let digit = |octet: u8| (octet as char).to_digit(16).expect("a hex digit") as u8;
    let pairs = text.as_bytes().chunks(2);
    pairs
        .map(|pair| digit(pair[0]) << 4 | digit(pair[1]))
        .collect()
}
