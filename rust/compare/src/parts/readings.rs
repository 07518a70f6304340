//! Whole readings: packets of every kind, broken ones too, for every end and into buffers around
//! the size that is due; and texts of every length, read, and taken by a peer in every stage.

use second::Octets16;

use crate::call::Call;
use crate::layout::{reading_of, Reading, PEER, READING};
use crate::packets::{any_packet, bare_success, challenge, eap, failure, long, success, Exchange};
use crate::pair::{Answer, Difference, Pair, Run};
use crate::random::Random;

const PACKETS: usize = 3000;
const ROOM: usize = 400;
const PADDING: &[u8] = b" M=padding";
/// After the digits of a Success message, or ` M=`, that is the most within 1,020 octets.
const SUCCESS_TEXT: usize = 966;

pub fn run(pair: &mut Pair, random: &mut Random) -> Run<()> {
    for _ in 0..PACKETS {
        everywhere(pair, &any_packet(random))?;
    }
    let peers = Peers::new(pair, random)?;
    peers.success_texts(pair, random)?;
    peers.failure_texts(pair, random)
}

/// For each end, and for numbers that are none, into buffers of the due size and of others.
fn everywhere(pair: &mut Pair, packet: &[u8]) -> Run<()> {
    for end in [0, 1, 2, 255] {
        for size in [0, 24, READING, 26, READING + 256] {
            pair.result(Call::Read { end, packet }, size)?;
        }
    }
    Ok(())
}

/// Both read the packet so, with padding too; or refuse it, where there is no such reading.
pub fn read_as(pair: &mut Pair, end: u8, packet: &[u8], due: Option<&Reading>) -> Run<()> {
    let padded = [packet, PADDING].concat();
    for packet in [packet, &padded] {
        let (answer, octets) = pair.result(Call::Read { end, packet }, READING)?;
        let octets = octets.as_slice().try_into().expect("a reading's size");
        let reading = (answer.number == 0).then(|| reading_of(octets));
        if reading.as_ref() != due {
            return Err(Difference::new(format!(
                "both read something else\npacket   {packet:02x?}\nboth     {reading:?}\ndue      {due:?}"
            )));
        }
    }
    Ok(())
}

/// A peer in each stage, and the numbers of the next request.
struct Peers {
    exchange: Exchange,
    id: u8,
    chapid: u8,
    /// In CHALLENGE_RESPONSE_SENT.
    responded: Vec<u8>,
    others: Vec<Vec<u8>>,
}

impl Peers {
    fn new(pair: &mut Pair, random: &mut Random) -> Run<Peers> {
        let exchange = Exchange::random(random);
        let (id, chapid) = (random.octet(), random.octet());
        let string = exchange.string();
        let [last, again] = [0, 1].map(|r| failure(id, chapid, 691, r, &[0xcd; 16], b"no"));
        let call = Call::PeerNew {
            name: &exchange.name,
            hash: &exchange.hash,
        };
        let (_, begin, _) = pair.try_on(call, &[0; PEER], 0)?;
        let mut after = |state: &[u8], packet: &[u8]| {
            let call = Call::PeerStep {
                packet,
                random: &exchange.own,
            };
            pair.try_on(call, state, ROOM).map(|(_, after, _)| after)
        };
        let first = challenge(id.wrapping_sub(1), chapid, &exchange.theirs, b"server");
        let responded = after(&begin, &first)?;
        let confirmed = after(&responded, &success(id, chapid, &string, b""))?;
        let others = vec![
            after(&responded, &last)?,
            after(&responded, &again)?,
            after(&confirmed, &eap(3, id))?,
            after(&confirmed, &eap(4, id))?,
            confirmed,
            begin,
        ];
        Ok(Peers {
            exchange,
            id,
            chapid,
            responded,
            others,
        })
    }

    /// The right string, and another.
    fn success_texts(&self, pair: &mut Pair, random: &mut Random) -> Run<()> {
        let (right, other) = (self.exchange.string(), random.array());
        for string in [&right, &other] {
            let bare = bare_success(self.id, self.chapid, string);
            let due = self.success_read(&bare, 51);
            self.read_and_take(pair, random, &bare, due)?;
            for length in 0..=SUCCESS_TEXT + 2 {
                let text = random.octets(length);
                let packet = success(self.id, self.chapid, string, &text);
                self.read_and_take(pair, random, &packet, self.success_read(&packet, 54))?;
            }
        }
        Ok(())
    }

    fn success_read(&self, packet: &[u8], text: usize) -> Option<Reading> {
        let places = [(0, 0), (11, 40), (text, packet.len() - text)];
        self.reading(packet, 2, 0, places)
    }

    /// Codes of one to ten digits, some of them leading zeros.
    fn failure_texts(&self, pair: &mut Pair, random: &mut Random) -> Run<()> {
        for digits in 1..=10 {
            for length in 0..=SUCCESS_TEXT - digits {
                let code = any_code(random, digits);
                let (r, c) = (random.below(2) as u8, random.array());
                let text = random.octets(length);
                self.failure_text(pair, random, &code, r, &c, &text)?;
            }
        }
        Ok(())
    }

    fn failure_text(
        &self,
        pair: &mut Pair,
        random: &mut Random,
        code: &str,
        r: u8,
        c: &Octets16,
        text: &[u8],
    ) -> Run<()> {
        let plain = failure(self.id, self.chapid, 0, r, c, text);
        let message = [b"E=", code.as_bytes(), &plain[12..]].concat();
        let packet = long(1, self.id, 4, self.chapid, &message);
        let number = code.parse().expect("ten digits at most");
        let places = [(18 + code.len(), 32), (0, 0), (57 + code.len(), text.len())];
        let due = self.reading(&packet, 3 + r, number, places);
        self.read_and_take(pair, random, &packet, due)
    }

    /// None for a packet over 1,020 octets.
    fn reading(
        &self,
        packet: &[u8],
        kind: u8,
        code: u64,
        places: [(usize, usize); 3],
    ) -> Option<Reading> {
        (packet.len() <= 1020).then_some(Reading {
            kind,
            id: self.id,
            chapid: self.chapid,
            length: packet.len() as u16,
            code,
            places,
        })
    }

    /// Now and then for every end, in every stage, and under the last answered Identifier.
    fn read_and_take(
        &self,
        pair: &mut Pair,
        random: &mut Random,
        packet: &[u8],
        due: Option<Reading>,
    ) -> Run<()> {
        read_as(pair, 0, packet, due.as_ref())?;
        self.take(pair, &self.responded, packet)?;
        if random.once_in(16) {
            everywhere(pair, packet)?;
            for state in &self.others {
                self.take(pair, state, packet)?;
            }
            let mut last = packet.to_vec();
            last[1] = self.id.wrapping_sub(1);
            self.take(pair, &self.responded, &last)?;
        }
        Ok(())
    }

    /// With room for the reply and without, and once answered again.
    fn take(&self, pair: &mut Pair, state: &[u8], packet: &[u8]) -> Run<()> {
        let padded = [packet, PADDING].concat();
        self.step(pair, state, packet, 0)?;
        self.step(pair, state, &padded, 5)?;
        let (answer, mut after) = self.step(pair, state, packet, 6)?;
        let mut n = answer.n;
        if answer.number == 1 {
            (n, after) = self.supply(pair, &after)?;
        }
        if answer.number < 10 {
            self.step(pair, &after, packet, n)?;
            self.step(pair, &after, &padded, ROOM)?;
            self.step(pair, &after, packet, n.saturating_sub(1))?;
        }
        Ok(())
    }

    fn step(
        &self,
        pair: &mut Pair,
        state: &[u8],
        packet: &[u8],
        room: usize,
    ) -> Run<(Answer, Vec<u8>)> {
        let call = Call::PeerStep {
            packet,
            random: &self.exchange.own,
        };
        let (answer, after, _) = pair.try_on(call, state, room)?;
        Ok((answer, after))
    }

    fn supply(&self, pair: &mut Pair, state: &[u8]) -> Run<(usize, Vec<u8>)> {
        let call = Call::PeerSupply {
            name: &self.exchange.name,
            hash: &self.exchange.hash,
            random: &self.exchange.own,
        };
        let (answer, after, _) = pair.try_on(call, state, ROOM)?;
        Ok((answer.n, after))
    }
}

/// A number of that many digits: any, or small ones, nines or zeros.
fn any_code(random: &mut Random, digits: usize) -> String {
    match random.below(5) {
        0 => format!("{:0digits$}", random.below(10)),
        1 => "9".repeat(digits),
        2 => "0".repeat(digits),
        _ => (0..digits)
            .map(|_| random.pick(&['0', '1', '6', '7', '9']))
            .collect(),
    }
}
