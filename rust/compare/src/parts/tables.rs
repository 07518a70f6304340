//! Account tables: well formed, changed, cut, of every size, with names that meet; each is checked
//! and a Response is judged by it.

use second::Octets16;

use crate::call::Call;
use crate::layout::SERVER;
use crate::packets::{account, any_code, record, Exchange};
use crate::pair::{Pair, Run};
use crate::random::Random;

const TABLES: usize = 8000;
const ROOM: usize = 300;

pub fn run(pair: &mut Pair, random: &mut Random) -> Run<()> {
    for _ in 0..TABLES {
        let user = short_user(random);
        let table = any_table(random, &user);
        judged(pair, random, &user, &table)?;
    }
    for table in edges(random) {
        judged(pair, random, b"edge", &table)?;
    }
    each_octet(pair, random)
}

/// A table is checked, and a Response from the hash of one of its records is judged by it.
fn judged(pair: &mut Pair, random: &mut Random, user: &[u8], table: &[u8]) -> Run<()> {
    pair.run(Call::AccountsCheck { table }, &mut [], &mut [])?;
    let exchange = Exchange {
        name: user.to_vec(),
        hash: some_hash(random, user, table),
        theirs: random.array(),
        own: random.array(),
    };
    let id = random.octet();
    let call = Call::ServerStart {
        identifier: id,
        challenge: &exchange.theirs,
        name: b"s",
        retries: random.below(2) as u64,
    };
    let (_, state, _) = pair.try_on(call, &[0; SERVER], ROOM)?;
    let packet = exchange.response(id, id);
    let fresh = if random.once_in(8) {
        exchange.theirs
    } else {
        random.array()
    };
    let call = Call::ServerPacket {
        packet: &packet,
        table,
        fresh: &fresh,
    };
    pair.try_on(call, &state, ROOM)?;
    Ok(())
}

/// The 16 octets before a place where the user's name stands, as an account has them.
fn some_hash(random: &mut Random, user: &[u8], table: &[u8]) -> Octets16 {
    let places = |at: &usize| table[*at..].starts_with(user);
    let found: Vec<usize> = (22..=table.len()).filter(places).take(50).collect();
    if found.is_empty() || random.once_in(10) {
        return random.array();
    }
    let at = random.pick(&found);
    table[at - 16..at].try_into().expect("16 octets")
}

/// Few letters, so that names are often equal or the beginning of one another.
fn short_user(random: &mut Random) -> Vec<u8> {
    let length = random.below(4);
    (0..length).map(|_| random.pick(b"ab")).collect()
}

fn any_table(random: &mut Random, user: &[u8]) -> Vec<u8> {
    let mut table = Vec::new();
    for _ in 0..random.below(7) {
        table.extend(any_record(random, user));
    }
    match random.below(6) {
        0 => {
            let cut = random.below(table.len() + 1);
            table.truncate(cut);
        }
        1 if !table.is_empty() => {
            let at = random.below(table.len());
            table[at] = random.octet();
        }
        2 if !table.is_empty() => {
            let at = random.below(table.len());
            table[at] ^= 1 << random.below(8);
        }
        3 => {
            let size = random.below(6);
            table.extend(random.octets(size));
        }
        _ => (),
    }
    table
}

fn any_record(random: &mut Random, user: &[u8]) -> Vec<u8> {
    let other = short_user(random);
    let name = if random.once_in(2) { user } else { &other };
    match random.below(20) {
        0 => account(
            random.pick(&[1, 645, 650, 691, 0x2800, 0xffff]),
            &random.array(),
            name,
        ),
        1 => record(1, &random.octets(17)),
        2 => vec![random.pick(&[0, 1, 2, 3]), 0, 0, 0],
        3..=6 => {
            let size = random.below(24);
            record(random.pick(&[0, 2, 256, 257, 0xffff]), &random.octets(size))
        }
        _ => account(any_code(random), &random.array(), name),
    }
}

/// The largest records and tables, and those one octet larger.
fn edges(random: &mut Random) -> Vec<Vec<u8>> {
    let known = account(0, &random.array(), b"edge");
    let mut tables = Vec::new();
    for name in [255, 256, 257] {
        tables.push([&account(0, &[7; 16], &vec![b'n'; name])[..], &known].concat());
    }
    for size in [65_534, 65_535, 65_536, 65_537, 65_538, 66_000, 131_072] {
        let mut table = known.clone();
        while table.len() < size {
            let rest = (size - table.len()).min(60_000);
            let body = rest.saturating_sub(4);
            table.extend(record(3, &vec![0; body]));
        }
        tables.push(table.clone());
        // The account last.
        table.rotate_left(known.len());
        tables.push(table);
    }
    tables.push(vec![0xff; 65_535]);
    tables.push([&[0xff, 0xff, 2, 0][..], &vec![0; 65_531]].concat());
    tables
}

/// Every value of every octet of a small table.
fn each_octet(pair: &mut Pair, random: &mut Random) -> Run<()> {
    let parts = [
        record(2, b"xy"),
        account(647, &[3; 16], b"edge"),
        account(0, &[4; 16], b"e"),
    ];
    let table = parts.concat();
    for at in 0..table.len() {
        for other in 0..=255 {
            let mut changed = table.clone();
            changed[at] = other;
            if at % 8 == 0 || other % 16 == 0 {
                judged(pair, random, b"edge", &changed)?;
            } else {
                pair.run(Call::AccountsCheck { table: &changed }, &mut [], &mut [])?;
            }
        }
    }
    Ok(())
}
