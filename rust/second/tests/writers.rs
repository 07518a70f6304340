//! The writers: what they write reads back, 23, 20, and 23 before 20.

mod common;

use common::*;
use second::packet::*;

const ID: Identifier = Identifier(200);
const CHAP: ChapId = ChapId(100);

#[test]
fn challenges() {
    for size in [1, 3, 256, 257, 994] {
        let name = vec![b'n'; size];
        let write = |out: &mut [u8]| write_challenge(ID, CHAP, &AUTHENTICATOR, &name, out);
        let expected = challenge(200, 100, &AUTHENTICATOR, &name);
        assert_eq!(write_in(26 + size, write), (0, expected.clone()));
        assert_eq!(write_in(2000, write), (0, expected));
        assert_eq!(write_in(25 + size, write).0, 20);
    }
    for size in [0, 995, 70_000] {
        let name = vec![b'n'; size];
        let write = |out: &mut [u8]| write_challenge(ID, CHAP, &AUTHENTICATOR, &name, out);
        assert_eq!(write_in(0, write).0, 23);
        assert_eq!(write_in(80_000, write).0, 23);
    }
}

#[test]
fn responses() {
    let nt = [77; 24];
    for size in [0, 1, 256] {
        let name = vec![b'n'; size];
        let write = |out: &mut [u8]| write_response(ID, CHAP, &RANDOM, &nt, &name, out);
        assert_eq!(
            write_in(59 + size, write),
            (0, response(200, 100, &RANDOM, &nt, &name))
        );
        assert_eq!(write_in(58 + size, write).0, 20);
        assert_eq!(write_in(0, write).0, 20);
    }
    let name = [b'n'; 257];
    let write = |out: &mut [u8]| write_response(ID, CHAP, &RANDOM, &nt, &name, out);
    assert_eq!(write_in(0, write).0, 23);
    assert_eq!(write_in(2000, write).0, 23);
}

#[test]
fn success_requests() {
    let string: [u8; 20] = std::array::from_fn(|i| i as u8 * 13);
    for size in [0, 2, 966] {
        let text = "t".repeat(size);
        let write = |out: &mut [u8]| write_success_request(ID, CHAP, &string, text.as_bytes(), out);
        assert_eq!(
            write_in(54 + size, write),
            (0, success(200, 100, &string, &text))
        );
        assert_eq!(write_in(53 + size, write).0, 20);
    }
    let write = |out: &mut [u8]| write_success_request(ID, CHAP, &string, &[b't'; 967], out);
    assert_eq!(write_in(0, write).0, 23);
    assert_eq!(write_in(2000, write).0, 23);
}

#[test]
fn failure_requests() {
    let codes = [
        0,
        1,
        9,
        10,
        99,
        100,
        691,
        999,
        1000,
        4_294_967_296,
        9_999_999_999,
    ];
    for code in codes {
        for r in [0, 1] {
            let most = 1020 - 57 - code.to_string().len();
            for size in [0, 6, most] {
                let text = "t".repeat(size);
                let write = |out: &mut [u8]| {
                    write_failure_request(ID, CHAP, code, r, &FRESH, text.as_bytes(), out)
                };
                let expected = failure(200, 100, code, r, &FRESH, &text);
                assert_eq!(write_in(expected.len(), write), (0, expected.clone()));
                assert_eq!(write_in(expected.len() - 1, write).0, 20);
                let read = read(End::Peer, &expected).unwrap();
                assert_eq!(
                    (read.code, read.challenge, read.tail.1),
                    (code, FRESH, size)
                );
            }
            let text = vec![b't'; most + 1];
            let write =
                |out: &mut [u8]| write_failure_request(ID, CHAP, code, r, &FRESH, &text, out);
            assert_eq!(write_in(0, write).0, 23);
            assert_eq!(write_in(2000, write).0, 23);
        }
    }
    for (code, r) in [(10_000_000_000, 0), (u64::MAX, 1), (691, 2), (691, 255)] {
        let write = |out: &mut [u8]| write_failure_request(ID, CHAP, code, r, &FRESH, b"", out);
        assert_eq!(write_in(0, write).0, 23);
        assert_eq!(write_in(2000, write).0, 23);
    }
}

#[test]
fn bare_packets() {
    type Bare = fn(Identifier, &mut [u8]) -> Result<usize, u8>;
    let rows: [(Bare, Vec<u8>); 4] = [
        (write_success_response, short(2, 200, 3)),
        (write_failure_response, short(2, 200, 4)),
        (write_eap_success, eap(3, 200)),
        (write_eap_failure, eap(4, 200)),
    ];
    for (write, expected) in rows {
        let size = expected.len();
        assert_eq!(write_in(size, |out| write(ID, out)), (0, expected.clone()));
        assert_eq!(write_in(ROOM, |out| write(ID, out)), (0, expected));
        for room in 0..size {
            assert_eq!(write_in(room, |out| write(ID, out)).0, 20);
        }
    }
}
