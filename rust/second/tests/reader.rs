//! The reader: each of 10 to 17, their order, and the edges of every form.

mod common;

use common::*;
use second::packet::read;
use second::*;

fn peer(octets: &[u8]) -> Result<Packet, u8> {
    read(End::Peer, octets)
}

fn server(octets: &[u8]) -> Result<Packet, u8> {
    read(End::Server, octets)
}

/// The packet with L (and nothing else) set.
fn with_length(mut packet: Vec<u8>, length: u16) -> Vec<u8> {
    packet[2..4].copy_from_slice(&length.to_be_bytes());
    packet
}

fn with(mut packet: Vec<u8>, at: usize, octet: u8) -> Vec<u8> {
    packet[at] = octet;
    packet
}

#[test]
fn fewer_than_four_octets() {
    for octets in [&[][..], &[1], &[2, 2], &[9, 9, 9]] {
        assert_eq!(peer(octets), Err(10));
        assert_eq!(server(octets), Err(10));
    }
}

#[test]
fn length_out_of_range() {
    for length in [0, 1, 2, 3, 5, 6, 1020, 1021, 65535] {
        // Code 9 would be 13, and L over 1,020 would be 12: 11 comes first.
        assert_eq!(peer(&with_length(eap(9, 1), length)), Err(11));
        assert_eq!(server(&with_length(eap(9, 1), length)), Err(11));
    }
    assert_eq!(peer(&with_length(eap(9, 1), 4)), Err(13));
}

#[test]
fn length_over_the_most() {
    let mut packet = challenge(1, 2, &[3; 16], &[b'n'; 994]);
    assert_eq!(packet.len(), 1020);
    assert_eq!(peer(&packet).unwrap().tail, (26, 994));
    packet.push(0);
    assert_eq!(peer(&packet).unwrap().tail, (26, 994)); // padding
    assert_eq!(peer(&with_length(packet.clone(), 1021)), Err(12));
    // 12 before 13 and 14.
    assert_eq!(server(&with_length(packet.clone(), 1021)), Err(12));
    assert_eq!(peer(&with_length(with(packet, 4, 25), 1021)), Err(12));
    assert_eq!(peer(&with_length(vec![3; 70000], 65535)), Err(12));
    // So at the ends, in any stage.
    let huge = with_length(vec![3; 70000], 65535);
    let (_, mut failed) = Peer::new(&[0; 257], &HASH);
    assert_eq!(step(&mut failed, &huge).0, 12);
    assert_eq!(common::packet(&mut Server::new(), &huge, &[]).0, 12);
}

#[test]
fn code_for_this_end() {
    for code in 0..=255 {
        let at_peer = peer(&eap(code, 1));
        let at_server = server(&eap(code, 1));
        match code {
            1 => assert_eq!((at_peer, at_server), (Err(14), Err(13))),
            2 => assert_eq!((at_peer, at_server), (Err(13), Err(14))),
            3 => assert_eq!(
                (at_peer.unwrap().kind, at_server),
                (Kind::EapSuccess, Err(13))
            ),
            4 => assert_eq!(
                (at_peer.unwrap().kind, at_server),
                (Kind::EapFailure, Err(13))
            ),
            _ => assert_eq!((at_peer, at_server), (Err(13), Err(13))),
        }
    }
}

#[test]
fn no_type_or_another() {
    assert_eq!(peer(&[1, 5, 0, 4, 26, 1]), Err(14)); // the Type would be padding
    assert_eq!(server(&[2, 5, 0, 4, 26, 3]), Err(14));
    for other in (0..=255).filter(|&other| other != 26) {
        assert_eq!(peer(&[1, 5, 0, 5, other]), Err(14)); // before 15
        assert_eq!(server(&[2, 5, 0, 6, other, 99]), Err(14));
    }
}

#[test]
fn no_opcode_or_another() {
    assert_eq!(peer(&[1, 5, 0, 5, 26, 1]), Err(15)); // the OpCode would be padding
    assert_eq!(server(&[2, 5, 0, 5, 26]), Err(15));
    for op in 0..=255 {
        let at_peer = peer(&short(1, 5, op)).err();
        let at_server = server(&short(2, 5, op)).err();
        assert_eq!(at_peer, Some(if [1, 3, 4].contains(&op) { 16 } else { 15 }));
        match op {
            2 => assert_eq!(at_server, Some(16)),
            3 | 4 => assert_eq!(at_server, None),
            _ => assert_eq!(at_server, Some(15)), // also 7, Change-Password
        }
    }
}

#[test]
fn ms_length() {
    for op in [1, 3, 4] {
        for length in 6..9 {
            let mut packet = with_length(long(1, 5, op, 5, b""), length);
            packet[7..9].copy_from_slice(&(length - 5).to_be_bytes());
            assert_eq!(peer(&packet), Err(16));
        }
        assert_eq!(peer(&long(1, 5, op, 5, b"")), Err(17));
        assert_eq!(peer(&with(long(1, 5, op, 5, b""), 8, 5)), Err(16)); // not L - 5, before 17
        assert_eq!(peer(&with(long(1, 5, op, 5, b""), 7, 1)), Err(16));
    }
    assert_eq!(server(&long(2, 5, 2, 5, b"")), Err(17));
    assert_eq!(server(&with(long(2, 5, 2, 5, b""), 8, 3)), Err(16));
    // Padding doesn't count in either length.
    let mut padded = challenge(1, 1, &[0; 16], b"FRZ");
    padded.extend([0; 50]);
    assert!(peer(&padded).is_ok());
    assert_eq!(peer(&with(padded, 8, 0x18 + 50)), Err(16));
}

#[test]
fn challenge_edges() {
    let packet = challenge(7, 8, &AUTHENTICATOR, b"n");
    let read = peer(&packet).unwrap();
    let expected = Packet {
        kind: Kind::Challenge,
        id: Identifier(7),
        chapid: ChapId(8),
        length: 27,
        code: 0,
        challenge: AUTHENTICATOR,
        challenge_at: (10, 16),
        response: [0; 24],
        string: [0; 20],
        response_at: (0, 0),
        tail: (26, 1),
    };
    assert_eq!(read, expected);
    assert_eq!(peer(&challenge(7, 8, &AUTHENTICATOR, b"")), Err(17));
    for size in (0..=255).filter(|&size| size != 16) {
        assert_eq!(peer(&with(packet.clone(), 9, size)), Err(17));
    }
    for length in 9..26 {
        assert_eq!(peer(&long(1, 7, 1, 8, &[16; 26][..length - 9])), Err(17));
    }
}

#[test]
fn response_edges() {
    let nt: [u8; 24] = std::array::from_fn(|i| i as u8 + 1);
    let packet = response(7, 8, &RANDOM, &nt, b"frz");
    let expected = Packet {
        kind: Kind::Response,
        id: Identifier(7),
        chapid: ChapId(8),
        length: 62,
        code: 0,
        challenge: RANDOM,
        challenge_at: (10, 16),
        response: nt,
        string: [0; 20],
        response_at: (34, 24),
        tail: (59, 3),
    };
    assert_eq!(server(&packet).unwrap(), expected);
    assert_eq!(
        server(&response(7, 8, &RANDOM, &nt, b"")).unwrap().tail,
        (59, 0)
    );
    assert_eq!(
        server(&response(7, 8, &RANDOM, &nt, &[b'n'; 256]))
            .unwrap()
            .tail,
        (59, 256)
    );
    assert_eq!(server(&response(7, 8, &RANDOM, &nt, &[b'n'; 257])), Err(17));
    for at in (26..34).chain([58]) {
        assert_eq!(server(&with(packet.clone(), at, 1)), Err(17));
        assert_eq!(server(&with(packet.clone(), at, 0x80)), Err(17));
    }
    assert_eq!(server(&with(packet, 9, 48)), Err(17));
    for length in 9..59 {
        let cut = &response(7, 8, &RANDOM, &nt, b"")[9..length];
        assert_eq!(server(&long(2, 7, 2, 8, cut)), Err(17));
    }
}

/// A Success Request of that length, with no text.
fn success_read(string: [u8; 20], length: usize) -> Packet {
    Packet {
        kind: Kind::SuccessRequest,
        id: Identifier(7),
        chapid: ChapId(8),
        length,
        code: 0,
        challenge: [0; 16],
        challenge_at: (0, 0),
        response: [0; 24],
        string,
        response_at: (11, 40),
        tail: (length, 0),
    }
}

#[test]
fn success_request_edges() {
    let string: [u8; 20] = std::array::from_fn(|i| 0xf0 ^ (i as u8 * 13));
    let packet = success(7, 8, &string, "");
    assert_eq!(packet.len(), 54);
    assert_eq!(peer(&packet).unwrap(), success_read(string, 54));
    assert_eq!(peer(&success(7, 8, &string, "OK")).unwrap().tail, (54, 2));
    assert_eq!(
        peer(&success(7, 8, &string, &"t".repeat(966)))
            .unwrap()
            .tail,
        (54, 966)
    );
    // Every octet before the text has a form: no other octet does, save another digit.
    for at in 9..54 {
        for octet in 0..=255u8 {
            let digit = octet.is_ascii_digit() || (b'A'..=b'F').contains(&octet);
            let fits = if (11..51).contains(&at) {
                digit
            } else {
                octet == packet[at]
            };
            assert_eq!(peer(&with(packet.clone(), at, octet)).is_ok(), fits);
        }
    }
}

#[test]
fn success_request_without_a_tail() {
    let string: [u8; 20] = std::array::from_fn(|i| 0x0f ^ (i as u8 * 11));
    let bare = success_and(7, 8, &string, "");
    assert_eq!(bare.len(), 51);
    let expected = success_read(string, 51);
    assert_eq!(peer(&bare).unwrap(), expected);
    // Padding is no tail, whatever it looks like.
    for padding in [" M=", " M=text", " M", " m=", "0", "\0\0\0"] {
        let padded = [&bare[..], padding.as_bytes()].concat();
        assert_eq!(peer(&padded).unwrap(), expected);
    }
    // A message of 0 to 46 octets: 42 have no tail, 45 an empty text, 46 one of one octet.
    let longest = success(7, 8, &string, "t");
    for octets in 0..=46 {
        let read = peer(&long(1, 7, 3, 8, &longest[9..9 + octets]));
        let tail = match octets {
            42 => Ok((51, 0)),
            45 => Ok((54, 0)),
            46 => Ok((54, 1)),
            _ => Err(17),
        };
        assert_eq!(read.map(|packet| packet.tail), tail, "{octets} octets");
    }
    for tail in [
        " ", " M", "M=", " m=", " M-", "  M=", "=M=", "0", "00", "\0", "\0\0\0", " S=", "M= ",
    ] {
        assert_eq!(peer(&success_and(7, 8, &string, tail)), Err(17), "{tail:?}");
    }
    // Fewer digits are not made up for by a tail or by padding.
    for digits in 0..40 {
        let cut = [&bare[9..11 + digits], b" M="].concat();
        assert_eq!(peer(&long(1, 7, 3, 8, &cut)), Err(17));
        let padded = [
            &long(1, 7, 3, 8, &bare[9..11 + digits]),
            &bare[11 + digits..],
        ]
        .concat();
        assert_eq!(peer(&padded), Err(17));
    }
}

fn failure_text(text: &str) -> Result<Packet, u8> {
    peer(&long(1, 7, 4, 8, text.as_bytes()))
}

const C: &str = "00112233445566778899aAbBcCdDeEfF";

#[test]
fn failure_request_edges() {
    let c: Octets16 = fixed(&hex(C));
    let packet = failure_text(&format!("E=691 R=0 C={C} V=3 M=")).unwrap();
    let expected = Packet {
        kind: Kind::FailureRequest,
        id: Identifier(7),
        chapid: ChapId(8),
        length: 60,
        code: 691,
        challenge: c,
        challenge_at: (21, 32),
        response: [0; 24],
        string: [0; 20],
        response_at: (0, 0),
        tail: (60, 0),
    };
    assert_eq!(packet, expected);
    let retry = failure_text(&format!("E=0691 R=1 C={C} V=0000000003 M=text")).unwrap();
    let expected = Packet {
        kind: Kind::RetryRequest,
        length: 74,
        challenge_at: (22, 32),
        tail: (70, 4),
        ..expected
    };
    assert_eq!(retry, expected);
    let largest = failure_text(&format!("E=9999999999 R=1 C={C} V=03 M= M=")).unwrap();
    assert_eq!((largest.code, largest.tail.1), (9_999_999_999, 3));
    assert_eq!(
        failure_text(&format!("E=0000000000 R=0 C={C} V=3 M="))
            .unwrap()
            .code,
        0
    );
}

#[test]
fn failure_requests_that_break_their_form() {
    let broken = [
        format!("E= R=0 C={C} V=3 M="),
        format!("E=00000000691 R=0 C={C} V=3 M="),
        format!("E=-1 R=0 C={C} V=3 M="),
        format!("E=69A R=0 C={C} V=3 M="),
        format!("e=691 R=0 C={C} V=3 M="),
        format!(" E=691 R=0 C={C} V=3 M="),
        format!("E=691  R=0 C={C} V=3 M="),
        format!("E=691R=0 C={C} V=3 M="),
        format!("E=691\tR=0 C={C} V=3 M="),
        format!("E=691 R=2 C={C} V=3 M="),
        format!("E=691 R=00 C={C} V=3 M="),
        format!("E=691 R= C={C} V=3 M="),
        format!("E=691 R=0 C={}G V=3 M=", &C[1..]),
        format!("E=691 R=0 C={} V=3 M=", &C[1..]),
        format!("E=691 R=0 C={C}0 V=3 M="),
        "E=691 R=0 C= V=3 M=".to_string(),
        format!("E=691 R=0 C={C} V=2 M="),
        format!("E=691 R=0 C={C} V=30 M="),
        format!("E=691 R=0 C={C} V= M="),
        format!("E=691 R=0 C={C} V=00000000003 M="),
        format!("E=691 R=0 C={C} V=3  M="),
        format!("E=691 R=0 C={C} V=3 m="),
        format!("E=691 C={C} R=0 V=3 M="),
        "E=691 R=0 V=3 M=".to_string(),
    ];
    for text in &broken {
        assert_eq!(failure_text(text), Err(17), "{text}");
    }
    let whole = format!("E=691 R=0 C={C} V=3 M=");
    for end in 0..whole.len() {
        assert_eq!(failure_text(&whole[..end]), Err(17));
    }
}

/// The text's place, and what stands there.
fn text(packet: &[u8]) -> (Place, Vec<u8>) {
    let (start, length) = peer(packet).unwrap().text();
    ((start, length), packet[start..start + length].to_vec())
}

#[test]
fn texts_of_success_requests() {
    let mut random = Random(5);
    for length in 0..=966 {
        let text_octets = random.octets(length);
        let message = [&success(7, 8, &[0x5a; 20], "")[9..], &text_octets].concat();
        let packet = long(1, 7, 3, 8, &message);
        let told = ((54, length), text_octets);
        assert_eq!(text(&packet), told);
        let padded = [&packet[..], b" M=padding"].concat();
        assert_eq!(text(&padded), told);
    }
    let bare = success_and(7, 8, &[0x5a; 20], "");
    assert_eq!(text(&bare), ((51, 0), vec![]));
    assert_eq!(text(&[&bare[..], b" M=padding"].concat()).0, (51, 0));
    // The first ` M=` is the tag: another one is text.
    let twice = success(7, 8, &[0x5a; 20], " M= M=");
    assert_eq!(text(&twice), ((54, 6), b" M= M=".to_vec()));
}

#[test]
fn texts_of_failure_requests() {
    let mut random = Random(6);
    let codes = (1..=10).flat_map(|digits| ["9".repeat(digits), format!("{:0digits$}", 7)]);
    for (code, r) in codes.zip([0, 1].into_iter().cycle()) {
        let head = format!("E={code} R={r} C={C} V=3 M=");
        let start = 9 + head.len();
        for length in (0..10).chain(1020 - start - 2..=1020 - start) {
            let text_octets = random.octets(length);
            let message = [head.as_bytes(), &text_octets].concat();
            let packet = long(1, 7, 4, 8, &message);
            assert_eq!(text(&packet), ((start, length), text_octets));
            let read = peer(&packet).unwrap();
            assert_eq!(read.code, code.parse().unwrap());
            let (c, digits) = read.challenge_at;
            assert_eq!(&packet[c..c + digits], C.as_bytes());
        }
    }
}

#[test]
fn no_text_elsewhere() {
    let texts = [
        peer(&challenge(7, 8, &AUTHENTICATOR, b" M=name")),
        server(&response(7, 8, &RANDOM, &[1; 24], b" M=name")),
        server(&short(2, 7, 3)),
        server(&short(2, 7, 4)),
        peer(&eap(3, 7)),
        peer(&eap(4, 7)),
    ];
    for read in texts {
        assert_eq!(read.unwrap().text(), (0, 0));
    }
}

#[test]
fn bare_packets() {
    for (op, kind) in [(3, Kind::SuccessResponse), (4, Kind::FailureResponse)] {
        let read = server(&short(2, 9, op)).unwrap();
        assert_eq!(
            (read.kind, read.id, read.chapid, read.length),
            (kind, Identifier(9), ChapId(0), 6)
        );
        let longer = [short(2, 9, op), vec![0; 20]].concat();
        assert_eq!(server(&longer).unwrap(), read); // padding
        for length in 7..26 {
            assert_eq!(server(&with_length(longer.clone(), length)), Err(17));
        }
    }
    for (code, kind) in [(3, Kind::EapSuccess), (4, Kind::EapFailure)] {
        let read = peer(&eap(code, 9)).unwrap();
        assert_eq!(
            (read.kind, read.id, read.chapid, read.length),
            (kind, Identifier(9), ChapId(0), 4)
        );
        let longer = [eap(code, 9), vec![26, 3, 9, 0, 9]].concat();
        assert_eq!(peer(&longer).unwrap(), read);
        for length in 5..10 {
            assert_eq!(peer(&with_length(longer.clone(), length)), Err(17)); // never 14, 15, 16
        }
    }
}
