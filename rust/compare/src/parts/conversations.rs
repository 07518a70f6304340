//! Whole conversations over a bad link: packets are lost, come again, late, out of order and
//! changed; peers retry and give up; buffers have every size around the one that is needed.

use second::Octets16;

use crate::call::Call;
use crate::layout::{at, PEER, SERVER};
use crate::packets::{account, any_code, any_name, any_packet, eap, mutate, record};
use crate::pair::{Answer, Pair, Run};
use crate::random::Random;

const CONVERSATIONS: usize = 2500;
const MOVES: usize = 30;
const ROOM: usize = 400;
const WAITING: u8 = 4;

pub fn run(pair: &mut Pair, random: &mut Random) -> Run<()> {
    for _ in 0..CONVERSATIONS {
        let mut link = Link::open(pair, random)?;
        for _ in 0..MOVES {
            link.move_on()?;
        }
    }
    Ok(())
}

struct Link<'p> {
    pair: &'p mut Pair,
    random: &'p mut Random,
    name: Vec<u8>,
    hash: Octets16,
    table: Vec<u8>,
    peer: Vec<u8>,
    server: Vec<u8>,
    /// All that either end ever wrote, the newest last.
    requests: Vec<Vec<u8>>,
    replies: Vec<Vec<u8>>,
}

enum End {
    Peer,
    Server,
}

impl<'p> Link<'p> {
    fn open(pair: &'p mut Pair, random: &'p mut Random) -> Run<Link<'p>> {
        let (name, hash) = (any_name(random), random.array());
        let table = table_with(random, &name, &hash);
        let mut link = Link {
            pair,
            random,
            name,
            hash,
            table,
            // What was there before is written over.
            peer: vec![1; PEER],
            server: vec![1; SERVER],
            requests: Vec::new(),
            replies: Vec::new(),
        };
        let (name, hash) = link.credentials();
        let call = Call::PeerNew {
            name: &name,
            hash: &hash,
        };
        link.pair.run(call, &mut link.peer, &mut [])?;
        link.pair.run(Call::ServerNew, &mut link.server, &mut [])?;
        link.start()?;
        Ok(link)
    }

    /// Most often the account's name and hash.
    fn credentials(&mut self) -> (Vec<u8>, Octets16) {
        let name = if self.random.once_in(10) {
            any_name(self.random)
        } else {
            self.name.clone()
        };
        let hash = if self.random.once_in(3) {
            self.random.array()
        } else {
            self.hash
        };
        (name, hash)
    }

    fn move_on(&mut self) -> Run<()> {
        match self.random.below(24) {
            0..=6 => self.newest(End::Peer),
            7..=12 => self.newest(End::Server),
            13 => self.any_earlier(End::Peer),
            14 => self.any_earlier(End::Server),
            15 => self.changed(End::Peer),
            16 => self.changed(End::Server),
            17 => self.forged(),
            18 => self.resend(),
            19 => self.start(),
            20 => self.supply(),
            21 => self.give_up(),
            _ => self.answer_if_asked(),
        }
    }

    fn newest(&mut self, to: End) -> Run<()> {
        let packet = self.sent_to(&to).last().cloned();
        self.deliver(to, packet)
    }

    /// Late, again, or out of order.
    fn any_earlier(&mut self, to: End) -> Run<()> {
        let sent = self.sent_to(&to).len();
        if sent == 0 {
            return Ok(());
        }
        let which = self.random.below(sent);
        let packet = self.sent_to(&to)[which].clone();
        self.deliver(to, Some(packet))
    }

    fn changed(&mut self, to: End) -> Run<()> {
        let mut packet = match self.sent_to(&to).last() {
            Some(newest) => newest.clone(),
            None => any_packet(self.random),
        };
        mutate(self.random, &mut packet);
        self.deliver(to, Some(packet))
    }

    /// EAP Success or Failure under a nearby Identifier, or any packet.
    fn forged(&mut self) -> Run<()> {
        let id = self.server[at::SERVER_ID].wrapping_add(self.random.below(3) as u8);
        let code = self.random.pick(&[3, 4]);
        self.deliver(End::Peer, Some(eap(code, id.wrapping_sub(1))))?;
        let packet = any_packet(self.random);
        self.deliver(End::Peer, Some(packet.clone()))?;
        self.deliver(End::Server, Some(packet))
    }

    fn sent_to(&self, end: &End) -> &[Vec<u8>] {
        match end {
            End::Peer => &self.requests,
            End::Server => &self.replies,
        }
    }

    fn deliver(&mut self, to: End, packet: Option<Vec<u8>>) -> Run<()> {
        let Some(packet) = packet else {
            return Ok(());
        };
        match to {
            End::Peer => {
                let random: Octets16 = self.random.array();
                let call = Call::PeerStep {
                    packet: &packet,
                    random: &random,
                };
                self.at_peer(call)
            }
            End::Server => {
                let fresh = self.fresh();
                let table = self.lent_table();
                let call = Call::ServerPacket {
                    packet: &packet,
                    table: &table,
                    fresh: &fresh,
                };
                self.at_server(call)
            }
        }
    }

    /// Now and then the outstanding challenge.
    fn fresh(&mut self) -> Octets16 {
        if self.random.once_in(6) {
            let outstanding = &self.server[at::SERVER_CHALLENGE..at::SERVER_CHALLENGE + 16];
            return outstanding.try_into().expect("16 octets");
        }
        self.random.array()
    }

    /// Now and then another one, or a malformed one.
    fn lent_table(&mut self) -> Vec<u8> {
        match self.random.below(12) {
            0 => Vec::new(),
            1 => self.table[..self.table.len() - 1].to_vec(),
            2 => table_with(self.random, &self.name.clone(), &self.hash.clone()),
            _ => self.table.clone(),
        }
    }

    fn answer_if_asked(&mut self) -> Run<()> {
        if self.peer[at::STAGE] == WAITING && !self.random.once_in(8) {
            return self.supply();
        }
        self.newest(End::Peer)
    }

    fn supply(&mut self) -> Run<()> {
        let (mut name, hash) = self.credentials();
        if self.random.once_in(12) {
            name = vec![b'n'; 257];
        }
        let random: Octets16 = self.random.array();
        self.at_peer(Call::PeerSupply {
            name: &name,
            hash: &hash,
            random: &random,
        })
    }

    /// Seldom in earnest, so that conversations go on.
    fn give_up(&mut self) -> Run<()> {
        let (_, after, _) = self.pair.try_on(Call::PeerGiveUp, &self.peer, 0)?;
        if self.random.once_in(4) {
            self.peer = after;
        }
        Ok(())
    }

    fn resend(&mut self) -> Run<()> {
        self.at_server(Call::ServerResend)
    }

    fn start(&mut self) -> Run<()> {
        let name = match self.random.below(10) {
            0 => Vec::new(),
            1 => vec![b's'; 256],
            2 => vec![b's'; 257],
            3 => vec![b's'; 994],
            _ => b"server".to_vec(),
        };
        let retries = match self.random.below(10) {
            0 => self.random.pick(&[11, 255, 256, 266, 1 << 32, u64::MAX]),
            1 => 10,
            _ => self.random.below(4) as u64,
        };
        let identifier = self.random.pick(&[0, 1, 2, 127, 128, 253, 254, 255]);
        let challenge: Octets16 = self.random.array();
        self.at_server(Call::ServerStart {
            identifier,
            challenge: &challenge,
            name: &name,
            retries,
        })
    }

    fn at_peer(&mut self, call: Call) -> Run<()> {
        let room = around(self.pair, self.random, call, &self.peer)?;
        let (answer, after, written) = self.pair.try_on(call, &self.peer, room)?;
        self.peer = after;
        if answer.number == 0 {
            self.replies.push(written);
        }
        Ok(())
    }

    fn at_server(&mut self, call: Call) -> Run<()> {
        let room = around(self.pair, self.random, call, &self.server)?;
        let (answer, after, written) = self.pair.try_on(call, &self.server, room)?;
        self.server = after;
        if answer.number < 10 {
            self.requests.push(written);
        }
        Ok(())
    }
}

/// Tries the call with buffers of sizes around the one that it needs, every size now and then, and
/// picks one for the call in earnest.
fn around(pair: &mut Pair, random: &mut Random, call: Call, state: &[u8]) -> Run<usize> {
    let (Answer { n, .. }, _, _) = pair.try_on(call, state, ROOM)?;
    let sizes = match random.below(40) {
        0 => 0..n + 3,
        1..=9 => n.saturating_sub(2)..n + 3,
        _ => return Ok(random.pick(&[ROOM, ROOM, n, n + 1])),
    };
    for room in sizes {
        pair.try_on(call, state, room)?;
    }
    Ok(random.pick(&[ROOM, n, n.saturating_sub(1), 0]))
}

/// A table that has the name's user, among others and other records.
fn table_with(random: &mut Random, name: &[u8], hash: &Octets16) -> Vec<u8> {
    let user = second::mschap::user_of(name).expect("a short name");
    let mut table = Vec::new();
    for _ in 0..random.below(4) {
        let other = any_name(random);
        table.extend(account(any_code(random), &random.array(), &other));
    }
    if random.once_in(2) {
        table.extend(record(7, b"skipped"));
    }
    table.extend(account(any_code(random), hash, user));
    if random.once_in(4) {
        table.extend(account(0, &random.array(), user));
    }
    table
}
