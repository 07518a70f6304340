//! The account table.

mod common;

use common::*;
use second::accounts::{append, check, find, Account};

const OTHER: [u8; 16] = *b"another hash 16.";

#[test]
fn well_formed_tables() {
    let tables = [
        vec![],
        record(0, b""),
        record(2, b"x"),
        record(65535, &[0; 65531]),
        account(0, &HASH, b""),
        account(649, &HASH, &[b'n'; 256]),
        [
            record(7, b"skip"),
            account(646, &HASH, b"frz"),
            record(0x0100, b""),
        ]
        .concat(),
        [record(9, &[0; 65531]), vec![]].concat(),
    ];
    for table in tables {
        assert_eq!(check(&table), Ok(()));
        assert_eq!(find(&table, b"nobody"), Ok(None));
    }
}

#[test]
fn malformed_tables() {
    let good = account(0, &HASH, b"frz");
    let tables = [
        vec![0],
        vec![4, 0, 2],
        vec![0, 0, 2, 0],
        vec![3, 0, 2, 0],
        vec![5, 0, 2, 0],
        vec![4, 0, 1, 0],
        vec![0, 4, 2, 0], // length 1,024
        record(1, &[0; 17]),
        account(0, &HASH, &[b'n'; 257]),
        account(1, &HASH, b"frz"),
        account(645, &HASH, b"frz"),
        account(650, &HASH, b"frz"),
        account(691, &HASH, b"frz"),
        account(0x8602, &HASH, b"frz"), // 646 with the octets changed about
        good[..good.len() - 1].to_vec(),
        [good.clone(), vec![0]].concat(),
        [good.clone(), vec![4, 0, 2]].concat(),
        [good.clone(), vec![3, 0, 2, 0]].concat(),
    ];
    for table in tables {
        assert_eq!(check(&table), Err(21), "{table:?}");
        assert_eq!(find(&table, b"frz"), Err(21)); // even after the account
        assert_eq!(find(&table, &[0; 257]), Err(21)); // before 23
    }
}

#[test]
fn codes() {
    for code in 0..=u16::MAX {
        let allowed = [0, 646, 647, 648, 649].contains(&code);
        let expected = if allowed {
            Ok(Some(Account { code, hash: HASH }))
        } else {
            Err(21)
        };
        assert_eq!(find(&account(code, &HASH, b"frz"), b"frz"), expected);
    }
}

#[test]
fn sizes() {
    let half = record(2, &[0; 32764]);
    let most = [half.clone(), half].concat();
    assert_eq!(most.len(), 65_536);
    assert_eq!(check(&most), Ok(()));
    let more = [most, record(2, b"")].concat();
    assert_eq!(check(&more), Err(21));
    assert_eq!(find(&[], &[b'n'; 256]), Ok(None));
    assert_eq!(find(&[], &[b'n'; 257]), Err(23));
}

#[test]
fn the_first_of_that_name() {
    let table = [
        record(2, b"frz"),
        account(0, &OTHER, b"frzz"),
        account(0, &OTHER, b"fr"),
        account(0, &OTHER, b"FRZ"),
        account(647, &HASH, b"frz"),
        account(0, &OTHER, b"frz"),
        account(648, &OTHER, b""),
    ]
    .concat();
    assert_eq!(
        find(&table, b"frz"),
        Ok(Some(Account {
            code: 647,
            hash: HASH
        }))
    );
    assert_eq!(
        find(&table, b""),
        Ok(Some(Account {
            code: 648,
            hash: OTHER
        }))
    );
    assert_eq!(find(&table, b"frz\0"), Ok(None));
}

#[test]
fn appended() {
    let mut buffer = [0xee; 80];
    assert_eq!(append(&mut buffer, 0, 0, &HASH, b"frz"), Ok(25));
    assert_eq!(append(&mut buffer, 25, 649, &OTHER, b""), Ok(47));
    let table = [account(0, &HASH, b"frz"), account(649, &OTHER, b"")].concat();
    assert_eq!(buffer[..47], table);
    assert_eq!(buffer[47..], [0xee; 33]);
    let found = Account {
        code: 649,
        hash: OTHER,
    };
    assert_eq!(find(&buffer[..47], b""), Ok(Some(found)));
}

/// Each refusal where the later ones hold too, and the buffer as it was.
#[test]
fn not_appended() {
    let good = account(0, &HASH, b"frz");
    let bad = [&good[..], &[0]].concat();
    let long = [b'n'; 257];
    let cases: [(&[u8], usize, u64, &[u8], u8); 9] = [
        (&bad, 27, 1, &long, 23),
        (&bad, usize::MAX, 0, b"", 23),
        (&bad, 26, 1, &long, 21),
        (&good, 25, 1, b"", 23),
        (&good, 25, 650, b"", 23),
        (&good, 25, 65_536, b"", 23),
        (&good, 25, 65_536 + 646, b"", 23),
        (&good, 25, 0, &long, 23),
        (&good, 25, 0, b"", 20),
    ];
    for (before, used, code, name, refusal) in cases {
        let mut buffer = before.to_vec();
        assert_eq!(append(&mut buffer, used, code, &HASH, name), Err(refusal));
        assert_eq!(buffer, before);
    }
}

/// A table grows to 65,536 octets and no further, however long the buffer is.
#[test]
fn appended_up_to_the_most() {
    for (used, name, answer) in [
        (65_514, "", Ok(65_536)),
        (65_515, "", Err(20)),
        (65_513, "n", Ok(65_536)),
        (65_514, "n", Err(20)),
    ] {
        let mut buffer = record(2, &vec![0; used - 4]);
        buffer.resize(70_000, 9);
        let before = buffer.clone();
        let name = name.as_bytes();
        assert_eq!(append(&mut buffer, used, 0, &HASH, name), answer);
        let end = answer.unwrap_or(used);
        assert_eq!(buffer[..used], before[..used]);
        assert_eq!(buffer[end..], before[end..]);
    }
}
