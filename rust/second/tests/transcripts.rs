//! What `login` and `table` are held to (the files `stdout` of their crates, and tests/programs),
//! against logins that are played with this program's ends: each answer, stage and octet.

mod common;

use common::*;
use second::*;

const CHALLENGE: &str = "5B5D7C7D7B3F2F3E3C2C602132262628";
const PEER_CHALLENGE: &str = "21402324255E262A28295F2B3A337C7E";

/// A line of a transcript: an end's answer and stage, a packet and the end it goes to, or a text
/// that the peer tells.
#[derive(Debug, PartialEq)]
enum Event {
    Answer(String, u8, String),
    Packet(String, Vec<u8>),
    Text(Vec<u8>),
}

#[test]
fn the_published_login() {
    let hash = mschap::password_hash(&units("clientPass")).unwrap();
    let login = Login {
        table: account(0, &hash, b"User"),
        ..Login::new("User", "clientPass")
    };
    let shown = include_str!("../../../crates/login/stdout");
    assert_eq!(events(shown), login.play());
}

#[test]
fn a_wrong_password_with_two_retries() {
    let login = Login {
        retries: 2,
        ..Login::new("User", "wrong")
    };
    let shown = include_str!("../../../tests/programs/retries");
    assert_eq!(events(shown), login.play());
}

#[test]
fn an_account_that_is_disabled() {
    let shown = include_str!("../../../tests/programs/disabled");
    let login = Login::new("CAMP\\frz", "clientPass");
    assert_eq!(events(shown), login.play());
}

#[test]
fn a_text_in_a_failure_request() {
    let login = Login {
        text: "zwölf \"Grad\"".to_string(),
        ..Login::new("CAMP\\frz", "clientPass")
    };
    let shown = include_str!("../../../tests/programs/told");
    assert_eq!(events(shown), login.play());
}

#[test]
fn challenges_that_are_given() {
    let login = Login {
        challenge: fixed(&hex("000102030405060708090a0b0c0d0eff")),
        random: fixed(&hex("F0F1F2F3F4F5F6F7F8F9FAFBFCFDFEFF")),
        ..Login::new("Müller", "Straße 9 €")
    };
    let shown = include_str!("../../../tests/programs/given");
    assert_eq!(events(shown), login.play());
}

#[test]
fn a_table_that_is_listed() {
    let lines = include_str!("../../../crates/table/stdout").lines();
    let listed: Vec<(u16, String)> = lines
        .filter_map(|line| line.split_once("  hash="))
        .map(|(code, rest)| (code.trim().parse().unwrap(), rest[..32].to_string()))
        .collect();
    let made = lines_of_the_table().map(|(_, hash, code)| {
        (
            code,
            hash.iter().map(|octet| format!("{octet:02X}")).collect(),
        )
    });
    assert_eq!(listed, made.collect::<Vec<_>>());
}

struct Login {
    table: Vec<u8>,
    name: String,
    password: String,
    challenge: Octets16,
    random: Octets16,
    retries: u64,
    /// What is put after `M=` in each Failure Request on its way to the peer.
    text: String,
}

impl Login {
    /// A login with the table that tests/programs/run makes, and the published challenges.
    fn new(name: &str, password: &str) -> Login {
        let accounts =
            lines_of_the_table().map(|(name, hash, code)| account(code, &hash, name.as_bytes()));
        Login {
            table: accounts.collect::<Vec<_>>().concat(),
            name: name.to_string(),
            password: password.to_string(),
            challenge: fixed(&hex(CHALLENGE)),
            random: fixed(&hex(PEER_CHALLENGE)),
            retries: 0,
            text: String::new(),
        }
    }

    /// Turn by turn, the last octet of each challenge counted up.
    fn play(&self) -> Vec<Event> {
        let name = self.name.as_bytes();
        let hash = mschap::password_hash(&units(&self.password)).unwrap();
        let (_, mut peer) = Peer::new(name, &hash);
        let mut server = Server::new();
        let mut all = Vec::new();
        let (mut packet, mut reply) = ([0; ROOM], [0; ROOM]);
        let done = server.start(
            Identifier(1),
            &self.challenge,
            b"server",
            self.retries,
            &mut packet,
        );
        let mut n = tell(
            &mut all,
            "server starts",
            done,
            &server.stage,
            "peer",
            &packet,
        );
        for turn in 0.. {
            let random = counted_up(&self.random, turn);
            let (mut done, text) = peer.step(&packet[..n], &random, &mut reply);
            if text.1 > 0 {
                all.push(Event::Text(packet[text.0..][..text.1].to_vec()));
            }
            let mut m = tell(&mut all, "peer", done, &peer.stage, "server", &reply);
            if done.0 == number::NEEDS_CREDENTIALS {
                done = peer.supply(name, &hash, &random, &mut reply);
                let given = "peer, given the same name and password";
                m = tell(&mut all, given, done, &peer.stage, "server", &reply);
            }
            if m == 0 {
                break;
            }
            let fresh = counted_up(&self.challenge, turn + 1);
            let done = server.packet(&reply[..m], &self.table, &fresh, &mut packet);
            n = tell(&mut all, "server", done, &server.stage, "peer", &packet);
            n = self.with_text(&mut all, n, &mut packet);
        }
        all
    }

    /// A Failure Request gets the text, if there is one; other packets go on as they are.
    fn with_text(&self, all: &mut Vec<Event>, n: usize, packet: &mut [u8]) -> usize {
        let Ok(read) = packet::read(End::Peer, &packet[..n]) else {
            return n;
        };
        let retry = match read.kind {
            Kind::FailureRequest => 0,
            Kind::RetryRequest => 1,
            _ => return n,
        };
        if self.text.is_empty() {
            return n;
        }
        let text = self.text.as_bytes();
        let n = packet::write_failure_request(
            read.id,
            read.chapid,
            read.code,
            retry,
            &read.challenge,
            text,
            packet,
        )
        .unwrap();
        all.push(Event::Packet("peer".to_string(), packet[..n].to_vec()));
        n
    }
}

fn counted_up(challenge: &Octets16, turn: u8) -> Octets16 {
    let mut next = *challenge;
    next[15] = next[15].wrapping_add(turn);
    next
}

fn tell(
    all: &mut Vec<Event>,
    who: &str,
    (number, n): Numbered,
    stage: &impl std::fmt::Debug,
    to: &str,
    packet: &[u8],
) -> usize {
    all.push(Event::Answer(who.to_string(), number, format!("{stage:?}")));
    if n > 0 {
        all.push(Event::Packet(to.to_string(), packet[..n].to_vec()));
    }
    n
}

/// Name, hash and code of each line of crates/table/data/lines that is no comment and not empty.
fn lines_of_the_table() -> impl Iterator<Item = (String, Octets16, u16)> {
    let lines = include_str!("../../../crates/table/data/lines").split('\n');
    let lines = lines.map(|line| line.strip_suffix('\r').unwrap_or(line));
    lines
        .filter(|line| !line.is_empty() && !line.starts_with('#'))
        .map(|line| {
            let fields: Vec<&str> = line.split('\t').collect();
            let hash = match fields[1].strip_prefix("hash=") {
                Some(digits) => fixed(&hex(digits)),
                None => mschap::password_hash(&units(fields[1])).unwrap(),
            };
            let code = fields.get(2).map_or(0, |code| code.parse().unwrap());
            (fields[0].to_string(), hash, code)
        })
}

/// The answers and packets of a transcript, in order.
fn events(shown: &str) -> Vec<Event> {
    let mut all = Vec::new();
    for line in shown.lines() {
        if let Some(text) = line.strip_prefix("peer, the server's text: ") {
            all.push(Event::Text(unquoted(text)));
        } else if let Some((who, rest)) = line.split_once(": answer ") {
            let (number, stage) = rest.split_once(", stage ").unwrap();
            let number = number.split(' ').next().unwrap().parse().unwrap();
            all.push(Event::Answer(who.to_string(), number, stage_name(stage)));
        } else if let Some((_, rest)) = line.split_once(" -> ") {
            let to = rest.split(' ').next().unwrap();
            all.push(Event::Packet(to.to_string(), Vec::new()));
        } else if let Some(octets) = line
            .strip_prefix("    octets          ")
            .or(line.strip_prefix("                    "))
        {
            let Some(Event::Packet(_, packet)) = all.last_mut() else {
                panic!("octets of no packet");
            };
            packet.extend(hex(octets));
        }
    }
    all
}

/// The octets of a text in quotation marks, in which a backslash escapes.
fn unquoted(shown: &str) -> Vec<u8> {
    let inner = shown
        .strip_prefix('"')
        .and_then(|rest| rest.strip_suffix('"'));
    let mut left = inner.unwrap().as_bytes();
    let mut octets = Vec::new();
    while let Some((&octet, rest)) = left.split_first() {
        let (octet, used) = match (octet, rest.first()) {
            (b'\\', Some(b'x')) => (hex(std::str::from_utf8(&rest[1..3]).unwrap())[0], 3),
            (b'\\', Some(&escaped)) => (escaped, 1),
            _ => (octet, 0),
        };
        octets.push(octet);
        left = &rest[used..];
    }
    octets
}

/// CHALLENGE_SENT as this program names it.
fn stage_name(shown: &str) -> String {
    let words = shown
        .split('_')
        .map(|word| word[..1].to_string() + &word[1..].to_lowercase());
    words.collect()
}
