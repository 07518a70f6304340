//! Packets written and read, against octets put together by hand.

use zirgumtak::*;

const CHALLENGE: Octets16 = [0x5b; 16];
const C: &str = "5B5B5B5B5B5B5B5B5B5B5B5B5B5B5B5B";
const NT: [u8; 24] = [0xc3; 24];
const STRING: [u8; 20] = [0xaf; 20];

/// A packet with MS-CHAPv2-ID and MS-Length, under Identifier 7 and MS-CHAPv2-ID 9.
fn long(code: u8, op: u8, rest: &[u8]) -> Vec<u8> {
    let length = 9 + rest.len() as u16;
    let mut packet = vec![code, 7];
    packet.extend(length.to_be_bytes());
    packet.extend([26, op, 9]);
    packet.extend((length - 5).to_be_bytes());
    packet.extend(rest);
    packet
}

fn success(tail: &[u8]) -> Vec<u8> {
    let digits = format!("S={}", "AF".repeat(20));
    long(1, 3, &[digits.as_bytes(), tail].concat())
}

fn failure(code: &str, retry: u8, c: &str, text: &[u8]) -> Vec<u8> {
    let message = format!("E={code} R={retry} C={c} V=3 M=");
    long(1, 4, &[message.as_bytes(), text].concat())
}

/// What an end reads in a packet that comes with padding.
fn read_padded(end: End, octets: &[u8], check: impl Fn(Packet)) {
    let padded = [octets, b" M=padding"].concat();
    let reading = read(end, &padded).unwrap();
    assert_eq!((reading.identifier, reading.octets), (7, octets));
    check(reading.packet);
}

/// A writer's packet, and 20 without room for it; the octets after it stay.
fn writes(write: impl Fn(&mut [u8]) -> Result<&[u8], Refusal>, expected: &[u8]) {
    let mut room = [0xee; 1100];
    assert_eq!(write(&mut room), Ok(expected));
    assert!(room[expected.len()..].iter().all(|octet| *octet == 0xee));
    assert_eq!(write(&mut room[..expected.len()]), Ok(expected));
    let mut short = vec![0xee; expected.len() - 1];
    assert_eq!(write(&mut short), Err(Refusal::NoRoom));
    assert_eq!(write(&mut []), Err(Refusal::NoRoom));
    assert!(short.iter().all(|octet| *octet == 0xee));
}

fn refuses(write: impl Fn(&mut [u8]) -> Result<&[u8], Refusal>) {
    for size in [0, 1020, 2000] {
        let mut room = vec![0xee; size];
        assert_eq!(write(&mut room), Err(Refusal::BadArgument));
        assert!(room.iter().all(|octet| *octet == 0xee));
    }
}

#[test]
fn challenges() {
    for size in [1, 256, 994] {
        let name = vec![b'n'; size];
        let expected = long(1, 1, &[&[16], &CHALLENGE[..], &name].concat());
        writes(
            |out| write_challenge(7, ChapId(9), &CHALLENGE, &name, out),
            &expected,
        );
        let packet = Packet::Challenge {
            chap_id: ChapId(9),
            challenge: &CHALLENGE,
            name: &name,
        };
        read_padded(End::Peer, &expected, |read| assert_eq!(read, packet));
    }
    for size in [0, 995] {
        let name = vec![b'n'; size];
        refuses(|out| write_challenge(7, ChapId(9), &CHALLENGE, &name, out));
    }
}

#[test]
fn responses() {
    for size in [0, 4, 256] {
        let name = vec![b'n'; size];
        let rest = [&[49], &CHALLENGE[..], &[0; 8], &NT, &[0], &name].concat();
        let expected = long(2, 2, &rest);
        writes(
            |out| write_response(7, ChapId(9), &CHALLENGE, &NT, &name, out),
            &expected,
        );
        let packet = Packet::Response {
            chap_id: ChapId(9),
            peer_challenge: &CHALLENGE,
            nt_response: &NT,
            name: &name,
        };
        read_padded(End::Server, &expected, |read| assert_eq!(read, packet));
        assert_eq!(packet.text(), None);
    }
    refuses(|out| write_response(7, ChapId(9), &CHALLENGE, &NT, &[b'n'; 257], out));
}

#[test]
fn success_requests() {
    for size in [0, 1, 966] {
        let text = vec![0xe4; size];
        let expected = success(&[b" M=", &text[..]].concat());
        writes(
            |out| write_success_request(7, ChapId(9), &STRING, &text, out),
            &expected,
        );
        read_padded(End::Peer, &expected, |read| {
            let digits = "AF".repeat(20);
            let packet = Packet::SuccessRequest {
                chap_id: ChapId(9),
                digits: digits.as_bytes().try_into().unwrap(),
                text: &text,
            };
            assert_eq!((read, read.text()), (packet, Some(&text[..])));
        });
    }
    refuses(|out| write_success_request(7, ChapId(9), &STRING, &[0; 967], out));
    // A message that ends with its digits, which no writer writes.
    read_padded(End::Peer, &success(b""), |read| {
        assert_eq!(read.text(), Some(&b""[..]));
    });
}

#[test]
fn failure_requests() {
    let codes = [0, 9, 10, 647, 65_536 + 647, 4_294_967_295, 9_999_999_999];
    for (code, retry) in codes.into_iter().zip([false, true].into_iter().cycle()) {
        let most = 963 - code.to_string().len();
        for size in [0, 2, most] {
            let text = vec![b' '; size];
            let expected = failure(&code.to_string(), u8::from(retry), C, &text);
            writes(
                |out| write_failure_request(7, ChapId(9), code, retry, &CHALLENGE, &text, out),
                &expected,
            );
            let packet = Packet::FailureRequest {
                chap_id: ChapId(9),
                code,
                retry,
                digits: C.as_bytes().try_into().unwrap(),
                text: &text,
            };
            read_padded(End::Peer, &expected, |read| assert_eq!(read, packet));
            assert_eq!(packet.text(), Some(&text[..]));
        }
        let text = vec![b' '; most + 1];
        refuses(|out| write_failure_request(7, ChapId(9), code, retry, &CHALLENGE, &text, out));
    }
    for code in [10_000_000_000, u64::MAX] {
        refuses(|out| write_failure_request(7, ChapId(9), code, false, &CHALLENGE, b"", out));
    }
}

/// What no writer writes: leading zeros, and digits of either case.
#[test]
fn other_failure_requests() {
    let c = "5b5B5b5B5b5B5b5B5b5B5b5B5b5B5b5B";
    let octets = failure("0000000647", 0, c, b"no");
    let packet = Packet::FailureRequest {
        chap_id: ChapId(9),
        code: 647,
        retry: false,
        digits: c.as_bytes().try_into().unwrap(),
        text: b"no",
    };
    read_padded(End::Peer, &octets, |read| assert_eq!(read, packet));
}

#[test]
fn short_packets() {
    writes(|out| write_success_response(7, out), &[2, 7, 0, 6, 26, 3]);
    writes(|out| write_failure_response(7, out), &[2, 7, 0, 6, 26, 4]);
    writes(|out| write_eap_success(7, out), &[3, 7, 0, 4]);
    writes(|out| write_eap_failure(7, out), &[4, 7, 0, 4]);
    for (end, octets, packet) in [
        (
            End::Server,
            &[2, 7, 0, 6, 26, 3][..],
            Packet::SuccessResponse,
        ),
        (End::Server, &[2, 7, 0, 6, 26, 4], Packet::FailureResponse),
        (End::Peer, &[3, 7, 0, 4], Packet::EapSuccess),
        (End::Peer, &[4, 7, 0, 4], Packet::EapFailure),
    ] {
        read_padded(end, octets, |read| assert_eq!(read, packet));
        assert_eq!(packet.text(), None);
    }
}

#[test]
fn packets_that_cannot_be_read() {
    for (end, octets, refusal) in [
        (End::Peer, &[1, 5, 0][..], Refusal::Short),
        (End::Peer, &[1, 5, 0, 5], Refusal::BadLength),
        (End::Peer, &[2, 5, 0, 6, 26, 3], Refusal::BadCode),
        (End::Server, &[3, 5, 0, 4], Refusal::BadCode),
        (End::Peer, &[1, 5, 0, 4], Refusal::BadType),
        (End::Peer, &[1, 5, 0, 5, 26], Refusal::BadOpCode),
        (End::Peer, &[1, 5, 0, 6, 26, 3], Refusal::BadMsLength),
        (End::Peer, &[1, 5, 0, 9, 26, 3, 5, 0, 4], Refusal::BadForm),
    ] {
        assert_eq!(read(end, octets), Err(refusal));
    }
    let long = [&[1, 5, 3, 0xfd], &[0; 1017][..]].concat();
    assert_eq!(read(End::Peer, &long), Err(Refusal::TooLong));
}
