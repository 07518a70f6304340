//! The archive has the header's version, and the comparison its sizes.

use compare::layout::{PEER, READING, SERVER};
use zirgumtak::raw;

const HEADER: &str = include_str!("../../../include/zirgumtak.h");

/// What the header defines a name as, without the comment after it.
fn defined(name: &str) -> &'static str {
    let line = HEADER.lines().find_map(|line| {
        let rest = line.strip_prefix("#define ")?.strip_prefix(name)?;
        rest.strip_prefix(' ')
    });
    let mut words = line.expect("a definition").split_whitespace();
    words.next().expect("a value")
}

#[test]
fn sizes() {
    for (name, size) in [
        ("ZT_PEER_OCTETS", PEER),
        ("ZT_SERVER_OCTETS", SERVER),
        ("ZT_READING_OCTETS", READING),
    ] {
        assert_eq!(defined(name).parse(), Ok(size), "{name}");
    }
}

#[test]
fn version() {
    assert_eq!(defined("ZT_VERSION").parse(), Ok(raw::version()));
    let version = raw::version();
    let (major, minor, patch) = (version / 10_000, version / 100 % 100, version % 100);
    let text = format!("\"{major}.{minor}.{patch}\"");
    assert_eq!(defined("ZT_VERSION_TEXT"), text);
}
