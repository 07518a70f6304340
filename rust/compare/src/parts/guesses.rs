//! The wrong-guess rule, sampled: two servers are called alike but for their tables, which are
//! well formed and may differ in everything and from call to call. While no judged Response is
//! right, all that they answer and write agrees.

use second::{accounts, mschap, packet, End, Octets16};

use crate::call::Call;
use crate::layout::{at, SERVER};
use crate::packets::{account, any_code, any_packet, record, response, short, Exchange};
use crate::pair::{Difference, Pair, Run};
use crate::random::Random;

const LISTS: usize = 2500;
const CALLS: usize = 12;
const ROOM: usize = 300;

pub fn run(pair: &mut Pair, random: &mut Random) -> Run<()> {
    let mut judged = 0;
    for _ in 0..LISTS {
        let mut servers = Servers::new(pair, random);
        for _ in 0..CALLS {
            servers.call()?;
        }
        judged += servers.judged;
    }
    if judged < LISTS {
        return Err(Difference::new(format!(
            "only {judged} Responses were judged"
        )));
    }
    Ok(())
}

struct Servers<'p> {
    pair: &'p mut Pair,
    random: &'p mut Random,
    /// Both servers' states, alike so far.
    states: [Vec<u8>; 2],
    /// Accounts that some tables have.
    people: Vec<Exchange>,
    judged: usize,
}

impl<'p> Servers<'p> {
    /// In BEGIN or in any state.
    fn new(pair: &'p mut Pair, random: &'p mut Random) -> Servers<'p> {
        let mut state = vec![0; SERVER];
        if random.once_in(3) {
            state = random.octets(SERVER);
            state[at::STAGE] = random.below(7) as u8;
        }
        let people = (0..3).map(|_| Exchange::random(random)).collect();
        Servers {
            pair,
            random,
            states: [state.clone(), state],
            people,
            judged: 0,
        }
    }

    fn call(&mut self) -> Run<()> {
        match self.random.below(10) {
            0 => self.both([Call::ServerResend; 2]),
            1 => {
                let challenge: Octets16 = self.random.array();
                let call = Call::ServerStart {
                    identifier: self.random.octet(),
                    challenge: &challenge,
                    name: b"server",
                    retries: self.random.below(11) as u64,
                };
                self.both([call; 2])
            }
            _ => self.packet(),
        }
    }

    fn packet(&mut self) -> Run<()> {
        let packet = self.any_guess();
        let tables = [self.table(), self.table()];
        if tables.iter().any(|table| self.is_right(&packet, table)) {
            return Ok(());
        }
        let outstanding = &self.states[0][at::SERVER_CHALLENGE..at::SERVER_CHALLENGE + 16];
        let fresh = if self.random.once_in(8) {
            outstanding.to_vec()
        } else {
            self.random.octets(16)
        };
        let calls = [0, 1].map(|i| Call::ServerPacket {
            packet: &packet,
            table: &tables[i],
            fresh: &fresh,
        });
        self.both(calls)
    }

    /// Both servers are called, and answer and write alike.
    fn both(&mut self, calls: [Call; 2]) -> Run<()> {
        let room = if self.random.once_in(6) {
            self.random.below(70)
        } else {
            ROOM
        };
        let fill = self.random.octet();
        let mut buffers = [vec![fill; room], vec![fill; room]];
        let mut answers = Vec::new();
        for i in [0, 1] {
            answers.push(
                self.pair
                    .run(calls[i], &mut self.states[i], &mut buffers[i])?,
            );
        }
        let alike = answers[0] == answers[1]
            && buffers[0] == buffers[1]
            && self.states[0] == self.states[1];
        if !alike {
            return Err(Difference::new(format!(
                "a wrong guess tells two tables apart\nfirst    {:02x?}\n  {:?} {:02x?}\nsecond   {:02x?}\n  {:?} {:02x?}",
                calls[0], answers[0], buffers[0], calls[1], answers[1], buffers[1],
            )));
        }
        if let Call::ServerPacket { packet, .. } = calls[0] {
            let is_response = packet.get(5) == Some(&2);
            self.judged += usize::from(is_response && [0, 22, 20].contains(&answers[0].number));
        }
        Ok(())
    }

    /// Responses that are nearly right: under another challenge, with the domain hashed, with
    /// another's hash, with one bit changed, for a name that no table has.
    fn any_guess(&mut self) -> Vec<u8> {
        let state = &self.states[0];
        let (id, chapid) = (state[at::SERVER_ID], state[at::SERVER_CHAPID]);
        let mut who = self.random.pick(&self.people);
        who.theirs = state[at::SERVER_CHALLENGE..at::SERVER_CHALLENGE + 16]
            .try_into()
            .expect("16 octets");
        match self.random.below(8) {
            0 => any_packet(self.random),
            1 => short(2, id, 3),
            2 => who.response(id, chapid.wrapping_add(1)),
            3 => {
                who.theirs[0] ^= 1;
                who.response(id, chapid)
            }
            4 => {
                who.hash = self.random.pick(&self.people).hash;
                who.response(id, chapid)
            }
            5 => {
                let nt = mschap::nt_response(&who.theirs, &who.own, &who.name, &who.hash);
                response(id, chapid, &who.own, &nt.expect("a short name"), &who.name)
            }
            6 => {
                let mut nt = who.nt_response();
                nt[self.random.below(24)] ^= 1 << self.random.below(8);
                response(id, chapid, &who.own, &nt, &who.name)
            }
            _ => who.response(id, chapid),
        }
    }

    /// Well formed, with some of the people, each under its own hash, another's or any.
    fn table(&mut self) -> Vec<u8> {
        let mut table = Vec::new();
        for _ in 0..self.random.below(6) {
            let who = self.random.pick(&self.people);
            let hash = match self.random.below(3) {
                0 => who.hash,
                1 => self.random.pick(&self.people).hash,
                _ => self.random.array(),
            };
            table.extend(match self.random.below(5) {
                0 => record(self.random.pick(&[0, 2, 9]), &who.name),
                1 => account(any_code(self.random), &hash, &who.name),
                _ => account(any_code(self.random), &hash, who.user()),
            });
        }
        table
    }

    /// Whether the packet is a Response that the table makes right.
    fn is_right(&self, octets: &[u8], table: &[u8]) -> bool {
        let Ok(read) = packet::read(End::Server, octets) else {
            return false;
        };
        let (start, length) = read.tail;
        let user = mschap::user_of(&octets[start..start + length]).expect("at most 256 octets");
        let Ok(Some(account)) = accounts::find(table, user) else {
            return false;
        };
        let challenge = &self.states[0][at::SERVER_CHALLENGE..at::SERVER_CHALLENGE + 16];
        let challenge = challenge.try_into().expect("16 octets");
        mschap::nt_response(challenge, &read.challenge, user, &account.hash) == Ok(read.response)
    }
}
