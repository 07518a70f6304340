//! `bench [--batches N]`: times the archive against the second program in one run, and prints a
//! table.
//!
//! Both have the same work: the same octets in and out, states decoded and encoded, the account
//! that is looked for at the end of the table, so that both walk all of it, names of one length,
//! so that both compare them whole, and the whole reading of a packet written as octets.

mod openssl;
mod rows;
mod timing;

use rows::Row;

const USAGE: &str = "usage: bench [--batches N]";

const METHOD: &str = "\
Nanoseconds for one call: the least of the batches, which the two take in turn. Both are built for
release. Result and reply buffers are not cleared before a call. A call on a state is made on a fresh
copy of that state, and the copying is counted at both. \"Other\" is the second program, ordinary Rust,
called with the same octets. Ratio: other / ours, so over 1 is faster than the other. OpenSSL is what
`openssl speed` says of its SHA-1, in its own loop.
";

fn main() {
    let Some(batches) = batches(std::env::args().skip(1)) else {
        eprintln!("{USAGE}");
        std::process::exit(2);
    };
    println!("{METHOD}");
    println!("| Call | ours, ns | other, ns | ratio | OpenSSL, ns |");
    println!("|---|---:|---:|---:|---:|");
    rows::each(batches, |row| println!("{}", line(row)));
}

fn batches(mut arguments: impl Iterator<Item = String>) -> Option<usize> {
    match (arguments.next(), arguments.next(), arguments.next()) {
        (None, ..) => Some(40),
        (Some(name), Some(value), None) if name == "--batches" => value.parse().ok(),
        _ => None,
    }
}

fn line(row: &Row) -> String {
    let Row { name, ours, other } = row;
    let ratio = other / ours;
    let openssl = openssl_for(name).map_or(String::new(), |time| format!("{time:.0}"));
    format!("| {name} | {ours:.0} | {other:.0} | {ratio:.2} | {openssl} |")
}

/// SHA-1 alone, as the limit, where the machine has the command.
fn openssl_for(name: &str) -> Option<f64> {
    match name {
        "SHA-1, 64 octets" => openssl::sha1(64),
        "SHA-1, 64 KiB" => openssl::sha1(65_536),
        _ => None,
    }
}
