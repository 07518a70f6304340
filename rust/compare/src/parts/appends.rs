//! Accounts appended to tables: buffers around the record's end and around 65,536 octets, tables
//! that are none, codes and names that no record has. What was made is a table, and its new account
//! logs in.

use second::Octets16;

use crate::call::Call;
use crate::layout::{at, SERVER};
use crate::packets::{account, any_code, record, Exchange};
use crate::pair::{Answer, Difference, Pair, Run};
use crate::random::Random;

const TABLES: usize = 8000;
const ROOM: usize = 300;

pub fn run(pair: &mut Pair, random: &mut Random) -> Run<()> {
    for _ in 0..TABLES {
        small(pair, random)?;
    }
    for used in [65_257, 65_258, 65_259, 65_513, 65_514, 65_515, 65_536] {
        large(pair, random, used)?;
    }
    full(pair, random)?;
    login(pair, random)
}

/// A table at the front of a buffer.
struct Buffer {
    octets: Vec<u8>,
    used: usize,
}

impl Buffer {
    fn new(random: &mut Random, table: &[u8], room: usize) -> Buffer {
        let mut octets = table.to_vec();
        octets.resize(room, random.octet());
        let used = table.len();
        Buffer { octets, used }
    }

    /// Both append, and what was there stays; so does all of it at a refusal.
    fn append(&mut self, pair: &mut Pair, code: u64, hash: &[u8], name: &[u8]) -> Run<Answer> {
        let before = self.octets.clone();
        let used = self.used;
        let call = Call::AccountsAppend {
            used,
            code,
            hash,
            name,
        };
        let answer = pair.run(call, &mut [], &mut self.octets)?;
        if answer.number != 0 {
            return Ok(answer);
        }
        self.used = answer.n;
        let table = &self.octets[..self.used];
        let end = used + 22 + name.len();
        if self.used != end || !table.starts_with(&before[..used]) || !table.ends_with(name) {
            return Err(Difference::new("both appended something else"));
        }
        let checked = pair.run(Call::AccountsCheck { table }, &mut [], &mut [])?;
        if checked.number != 0 {
            return Err(Difference::new("both made a table that is none"));
        }
        Ok(answer)
    }
}

/// Any table, code, name, room and size.
fn small(pair: &mut Pair, random: &mut Random) -> Run<()> {
    let table = any_table(random);
    let size = random.pick(&[0, 1, 3, 3, 7, 255, 256, 257]);
    let name = random.octets(size);
    let size = random.pick(&[16, 16, 16, 16, 16, 16, 16, 16, 0, 15, 17, 272]);
    let hash = random.octets(size);
    let code = match random.below(6) {
        0 => random.pick(&[
            1,
            645,
            650,
            691,
            0x8602,
            65_536,
            65_536 + 646,
            1 << 32,
            u64::MAX,
        ]),
        _ => any_code(random).into(),
    };
    let end = table.len() + 22 + name.len();
    let room = random.pick(&[table.len(), end - 1, end, end, end, end + 1, end + 40]);
    let mut buffer = Buffer::new(random, &table, room);
    if random.once_in(8) {
        buffer.used = random.pick(&[0, table.len() / 2, room, room + 1, 1 << 32, usize::MAX]);
    }
    buffer.append(pair, code, &hash, &name)?;
    Ok(())
}

/// Up to four records; now and then one that is none, or half of one.
fn any_table(random: &mut Random) -> Vec<u8> {
    let mut table = Vec::new();
    for _ in 0..random.below(5) {
        let size = random.below(6);
        let octets = random.octets(size);
        table.extend(match random.below(3) {
            0 => record(random.pick(&[0, 2, 256, 257]), &octets),
            _ => account(any_code(random), &random.array(), &octets),
        });
    }
    match random.below(8) {
        0 if !table.is_empty() => {
            let at = random.below(table.len());
            table[at] ^= 1 << random.below(8);
        }
        1 => {
            let cut = random.below(table.len() + 1);
            table.truncate(cut);
        }
        2 => table.push(random.octet()),
        _ => (),
    }
    table
}

/// A table of that many octets: what is appended ends around 65,536 octets, and so does the buffer.
fn large(pair: &mut Pair, random: &mut Random, used: usize) -> Run<()> {
    let table = [
        record(3, &vec![0; 60_000]),
        record(3, &vec![0; used - 60_008]),
    ]
    .concat();
    for size in [0, 1, 2, 255, 256, 257] {
        let name = random.octets(size);
        let end = used + 22 + size;
        for room in [end - 1, end, end + 1, 65_535, 65_536, 65_537, 70_000] {
            let mut buffer = Buffer::new(random, &table, room.max(used));
            buffer.append(pair, 0, &random.array::<16>(), &name)?;
        }
    }
    let more = [table, record(3, &vec![0; 65_537 - used.min(65_533)])].concat();
    Buffer::new(random, &more, 70_000).append(pair, 0, &[0; 16], b"")?;
    Ok(())
}

/// From nothing, account by account, until the table has no room for one more.
fn full(pair: &mut Pair, random: &mut Random) -> Run<()> {
    let mut buffer = Buffer::new(random, &[], 66_000);
    loop {
        let size = random.below(257);
        let (code, name) = (any_code(random), random.octets(size));
        let answer = buffer.append(pair, code.into(), &random.array::<16>(), &name)?;
        if answer.number == 20 {
            return Ok(());
        }
    }
}

/// Two accounts of each name: the first logs in, and the second does not.
fn login(pair: &mut Pair, random: &mut Random) -> Run<()> {
    let mut buffer = Buffer::new(random, &[], 1000);
    let names = [&b"a"[..], b"b", b"ab", b""];
    let [first, second]: [Octets16; 2] = [random.array(), random.array()];
    for hash in [first, second] {
        for name in names {
            buffer.append(pair, 0, &hash, name)?;
        }
    }
    let table = &buffer.octets[..buffer.used];
    for name in names {
        for (hash, stage) in [(first, 2), (second, 3)] {
            if judged(pair, random, table, name, hash)? != stage {
                return Err(Difference::new("both found another account"));
            }
        }
    }
    Ok(())
}

/// The server's stage after a Response of that name and hash.
fn judged(
    pair: &mut Pair,
    random: &mut Random,
    table: &[u8],
    name: &[u8],
    hash: Octets16,
) -> Run<u8> {
    let exchange = Exchange {
        name: name.to_vec(),
        hash,
        theirs: random.array(),
        own: random.array(),
    };
    let call = Call::ServerStart {
        identifier: 1,
        challenge: &exchange.theirs,
        name: b"s",
        retries: 0,
    };
    let (_, state, _) = pair.try_on(call, &[0; SERVER], ROOM)?;
    let packet = exchange.response(1, 1);
    let fresh: Octets16 = random.array();
    let call = Call::ServerPacket {
        packet: &packet,
        table,
        fresh: &fresh,
    };
    let (_, state, _) = pair.try_on(call, &state, ROOM)?;
    Ok(state[at::STAGE])
}
