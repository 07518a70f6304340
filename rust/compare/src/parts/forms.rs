//! Packets changed octet by octet, cut at every length and padded, and messages of every form,
//! each in a state that takes the packet as it was: read at both ends, and taken.

use crate::call::Call;
use crate::layout::{PEER, READING, SERVER};
use crate::packets::{
    account, bare_success, challenge, eap, failure, long, set_length, set_lengths, short, success,
    upper_hex, Exchange,
};
use crate::pair::{Pair, Run};
use crate::random::Random;

const ROOM: usize = 320;
const MESSAGES: usize = 6000;

pub fn run(pair: &mut Pair, random: &mut Random) -> Run<()> {
    let moments = moments(pair, random)?;
    for moment in &moments {
        moment.take(pair, &moment.packet)?;
        each_octet(pair, moment)?;
        each_length(pair, moment)?;
        padded(pair, random, moment)?;
    }
    messages(pair, random, &moments)
}

/// A packet, and an end in a stage of interest for it.
struct Moment {
    end: u8,
    state: Vec<u8>,
    packet: Vec<u8>,
    table: Vec<u8>,
}

impl Moment {
    /// Both ends read the packet, and one that is no end, and the end takes it.
    fn take(&self, pair: &mut Pair, packet: &[u8]) -> Run<Vec<u8>> {
        for end in [0, 1, 2] {
            pair.result(Call::Read { end, packet }, READING)?;
        }
        let call = match self.end {
            0 => Call::PeerStep {
                packet,
                random: &[9; 16],
            },
            _ => Call::ServerPacket {
                packet,
                table: &self.table,
                fresh: &[9; 16],
            },
        };
        let (_, after, _) = pair.try_on(call, &self.state, ROOM)?;
        Ok(after)
    }
}

fn each_octet(pair: &mut Pair, moment: &Moment) -> Run<()> {
    let mut packet = moment.packet.clone();
    for at in 0..packet.len() {
        for other in 0..=255 {
            packet[at] = other;
            moment.take(pair, &packet)?;
        }
        packet[at] = moment.packet[at];
    }
    Ok(())
}

/// As it was, with its L, and with its L and MS-Length.
fn each_length(pair: &mut Pair, moment: &Moment) -> Run<()> {
    for length in 0..moment.packet.len() {
        all_lengths(pair, moment, moment.packet[..length].to_vec())?;
    }
    Ok(())
}

/// With padding of any octets, and with padding that looks like a tail.
fn padded(pair: &mut Pair, random: &mut Random, moment: &Moment) -> Run<()> {
    for padding in [" ", " M", " M=", " M=text", " m=", "M=", "0", "00"] {
        let packet = [&moment.packet[..], padding.as_bytes()].concat();
        all_lengths(pair, moment, packet)?;
    }
    let length = moment.packet.len();
    let wholes = [
        256, 265, 266, 282, 283, 315, 316, 1019, 1020, 1021, 1022, 1276, 65_535, 65_536,
    ];
    let few = (1..12).map(|more| length + more);
    for whole in few.chain(wholes) {
        if whole > length {
            let padding = random.octets(whole - length);
            all_lengths(pair, moment, [&moment.packet[..], &padding].concat())?;
        }
    }
    Ok(())
}

fn all_lengths(pair: &mut Pair, moment: &Moment, mut packet: Vec<u8>) -> Run<()> {
    moment.take(pair, &packet)?;
    set_length(&mut packet);
    moment.take(pair, &packet)?;
    set_lengths(&mut packet);
    moment.take(pair, &packet)?;
    Ok(())
}

/// The stages that a conversation goes through, each with the packets that it takes, the request
/// that it has answered, and one that it does not take.
fn moments(pair: &mut Pair, random: &mut Random) -> Run<Vec<Moment>> {
    let mut exchange = Exchange::random(random);
    exchange.name.truncate(9);
    let mut moments = peer_moments(pair, &exchange, random.octet())?;
    moments.extend(server_moments(pair, random, &exchange)?);
    Ok(moments)
}

fn peer_moments(pair: &mut Pair, exchange: &Exchange, id: u8) -> Run<Vec<Moment>> {
    let (chapid, next) = (id ^ 1, id.wrapping_add(1));
    let first = challenge(id, chapid, &exchange.theirs, b"srv");
    let right = success(next, chapid, &exchange.string(), b"ok");
    let wrong = success(next, chapid, &[0xab; 20], b"");
    let bare = bare_success(next, chapid, &exchange.string());
    let bare_wrong = bare_success(next, chapid, &[0xab; 20]);
    let [last, again] = [0, 1].map(|r| failure(next, chapid, 691, r, &[0xcd; 16], b"no"));
    let (eap_success, eap_failure) = (eap(3, next), eap(4, next));

    let call = Call::PeerNew {
        name: &exchange.name,
        hash: &exchange.hash,
    };
    let (_, begin, _) = pair.try_on(call, &[0; PEER], 0)?;
    let mut step = |state: &Vec<u8>, packet: &Vec<u8>| {
        let call = Call::PeerStep {
            packet,
            random: &exchange.own,
        };
        pair.try_on(call, state, ROOM).map(|(_, after, _)| after)
    };
    let responded = step(&begin, &first)?;
    let succeeded = step(&responded, &right)?;
    let succeeded_bare = step(&responded, &bare)?;
    let failed = step(&responded, &last)?;
    let waiting = step(&responded, &again)?;
    Ok([
        (&begin, &first),
        (&responded, &first),
        (&responded, &right),
        (&responded, &wrong),
        (&responded, &last),
        (&responded, &again),
        (&responded, &eap(4, id)),
        (&responded, &eap_success),
        (&succeeded, &right),
        (&succeeded, &eap_success),
        (&succeeded, &eap_failure),
        (&failed, &last),
        (&failed, &eap_failure),
        (&waiting, &again),
        (&responded, &bare),
        (&responded, &bare_wrong),
        (&succeeded_bare, &bare),
        (&succeeded_bare, &right),
        (&succeeded_bare, &eap_success),
    ]
    .map(|(state, packet)| Moment {
        end: 0,
        state: state.clone(),
        packet: packet.clone(),
        table: Vec::new(),
    })
    .into())
}

fn server_moments(pair: &mut Pair, random: &mut Random, exchange: &Exchange) -> Run<Vec<Moment>> {
    let id = random.octet();
    let (_, fresh_server, _) = pair.try_on(Call::ServerNew, &[0; SERVER], 0)?;
    let call = Call::ServerStart {
        identifier: id,
        challenge: &exchange.theirs,
        name: b"server",
        retries: random.below(2) as u64,
    };
    let (_, started, _) = pair.try_on(call, &fresh_server, ROOM)?;
    let table = |code: u16, hash: &[u8; 16]| account(code, hash, exchange.user());
    let moment = |state: &[u8], packet: Vec<u8>, table: Vec<u8>| Moment {
        end: 1,
        state: state.to_vec(),
        packet,
        table,
    };
    let response = exchange.response(id, id);
    let right = moment(&started, response.clone(), table(0, &exchange.hash));
    let lapsed = moment(&started, response.clone(), table(648, &exchange.hash));
    let wrong = moment(&started, response.clone(), table(0, &[1; 16]));
    let absent = moment(&started, response, Vec::new());
    let succeeded = right.take(pair, &right.packet)?;
    let failed = lapsed.take(pair, &lapsed.packet)?;
    let next = id.wrapping_add(1);
    let ends = [
        moment(&succeeded, short(2, next, 3), Vec::new()),
        moment(&failed, short(2, next, 4), Vec::new()),
    ];
    Ok([right, lapsed, wrong, absent]
        .into_iter()
        .chain(ends)
        .collect())
}

/// Messages put together from parts, one or more of which may break the form.
fn messages(pair: &mut Pair, random: &mut Random, moments: &[Moment]) -> Run<()> {
    for _ in 0..MESSAGES {
        let is_success = random.once_in(3);
        let message = if is_success {
            any_success(random)
        } else {
            any_failure(random)
        };
        let responded = &moments[2];
        let (id, chapid) = (responded.packet[1], responded.packet[6]);
        let op = if is_success { 3 } else { 4 };
        responded.take(pair, &long(1, id, op, chapid, message.as_bytes()))?;
    }
    Ok(())
}

/// The usual part, or seldom another.
fn part<'a>(random: &mut Random, usual: &'a str, others: &[&'a str]) -> &'a str {
    if random.once_in(8) {
        random.pick(others)
    } else {
        usual
    }
}

fn any_success(random: &mut Random) -> String {
    let digits = any_digits(random, 40);
    let tag = part(random, "S=", &["s=", "S", " S=", "S =", "S= ", "E="]);
    let usual = random.pick(&["", " M="]);
    let tail = part(
        random,
        usual,
        &[" ", " M", "M=", "  M=", " m=", " M= ", " M=any text", "\0"],
    );
    format!("{tag}{digits}{tail}")
}

const NUMBERS: [&str; 12] = [
    "",
    "0",
    "00",
    "691",
    "0691",
    "9999999999",
    "0000000000",
    "00000000000",
    "12345678901",
    "-1",
    "+1",
    "6 1",
];
const THREES: [&str; 12] = [
    "03",
    "0000000003",
    "00000000003",
    "3 ",
    " 3",
    "",
    "4",
    "0",
    "30",
    "33",
    "4294967299",
    "3\0",
];
const TAGS: [&str; 7] = ["", " ", "  ", "=", " X=", "\t", " M="];

fn any_failure(random: &mut Random) -> String {
    let digits = any_digits(random, 32);
    let (e, code) = (part(random, "E=", &TAGS), part(random, "691", &NUMBERS));
    let (r, retry) = (
        part(random, " R=", &TAGS),
        random.pick(&["0", "1", "1", "1"]),
    );
    let retry = part(random, retry, &["", "2", "00", "01", "10", "-", "a"]);
    let (c, v) = (part(random, " C=", &TAGS), part(random, " V=", &TAGS));
    let (version, m) = (part(random, "3", &THREES), part(random, " M=", &TAGS));
    let text = part(random, "", &["text", " M=", "\0", "E=691 R=1"]);
    format!("{e}{code}{r}{retry}{c}{digits}{v}{version}{m}{text}")
}

/// Hex digits in upper, lower or both cases, seldom one too few or too many or not hex.
fn any_digits(random: &mut Random, count: usize) -> String {
    let octets = random.octets(21);
    let mut digits = upper_hex(&octets);
    match random.below(4) {
        0 => digits.make_ascii_lowercase(),
        1 => digits[..count / 2].make_ascii_lowercase(),
        _ => (),
    }
    let counts = [
        count - 1,
        count,
        count,
        count,
        count,
        count,
        count + 1,
        count + 2,
    ];
    digits.truncate(random.pick(&counts));
    if random.once_in(8) {
        let at = random.below(digits.len());
        digits.replace_range(at..=at, random.pick(&["g", "G", "@", "`", "/", ":", " "]));
    }
    digits
}
