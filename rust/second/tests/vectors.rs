//! The published vectors of base.txt.

mod common;

use common::{fixed, hex};
use second::{des, digest, mschap};

fn check(name: &str, fields: &[Vec<u8>], expected: Vec<u8>) {
    let got = match name {
        "md4" | "hash_hash" => digest::md4(&fields[0]).unwrap().to_vec(),
        "sha1" => digest::sha1(&fields[0]).unwrap().to_vec(),
        "des" => des::encrypt(&fixed(&fields[0]), &fixed(&fields[1])).to_vec(),
        "parity" => des::with_parity(&fixed(&fields[0])).to_vec(),
        "password_hash" => {
            let units: Vec<u16> = fields[0]
                .chunks(2)
                .map(|pair| u16::from_le_bytes(fixed(pair)))
                .collect();
            mschap::password_hash(&units).unwrap().to_vec()
        }
        "challenge_hash" => {
            mschap::challenge_hash(&fixed(&fields[0]), &fixed(&fields[1]), &fields[2])
                .unwrap()
                .to_vec()
        }
        "nt_response" => mschap::nt_response(
            &fixed(&fields[0]),
            &fixed(&fields[1]),
            &fields[2],
            &fixed(&fields[3]),
        )
        .unwrap()
        .to_vec(),
        "authenticator" => mschap::authenticator(
            &fixed(&fields[0]),
            &fixed(&fields[1]),
            &fixed(&fields[2]),
            &fixed(&fields[3]),
            &fields[4],
        )
        .unwrap()
        .to_vec(),
        other => panic!("no such case: {other}"),
    };
    assert_eq!(got, expected, "{name}");
}

#[test]
fn base() {
    let mut cases = 0;
    for line in include_str!("base.txt").lines() {
        if line.is_empty() || line.starts_with('#') {
            continue;
        }
        let parts: Vec<&str> = line.split('|').map(str::trim).collect();
        let (&expected, inputs) = parts[1..].split_last().unwrap();
        let fields: Vec<Vec<u8>> = inputs.iter().map(|field| hex(field)).collect();
        check(parts[0], &fields, hex(expected));
        cases += 1;
    }
    assert_eq!(cases, 30);
}

#[test]
fn largest_input_and_one_octet_more() {
    // The largest input of all, 65,536 octets; the digests are those of another library.
    let input = vec![b'a'; 65_536];
    assert_eq!(digest::sha1(&input).unwrap().to_vec(), hex(SHA1_OF_65536_A));
    assert_eq!(digest::md4(&input).unwrap().to_vec(), hex(MD4_OF_65536_A));
    assert_eq!(digest::sha1(&[0; 65_537]), Err(23));
    assert_eq!(digest::md4(&[0; 65_537]), Err(23));
}

const SHA1_OF_65536_A: &str = "79db5888b5d38e10afbdbd14a19cd1caa9044c65";
const MD4_OF_65536_A: &str = "f1666c502201e84edde837d07ed79ee4";

#[test]
fn sizes_of_the_stateless_calls() {
    let sixteen = [7; 16];
    assert!(mschap::password_hash(&[0; 256]).is_ok());
    assert_eq!(mschap::password_hash(&[0; 257]), Err(23));
    for (length, refused) in [(0, false), (256, false), (257, true)] {
        let name = vec![b'u'; length];
        let number = |refused: bool| if refused { Some(23) } else { None };
        assert_eq!(mschap::user_of(&name).err(), number(refused));
        assert_eq!(
            mschap::challenge_hash(&sixteen, &sixteen, &name).err(),
            number(refused)
        );
        let response = mschap::nt_response(&sixteen, &sixteen, &name, &sixteen);
        assert_eq!(response.err(), number(refused));
        let string = mschap::authenticator(&sixteen, &[7; 24], &sixteen, &sixteen, &name);
        assert_eq!(string.err(), number(refused));
    }
    assert_eq!(mschap::password_hash(&[]), digest::md4(b""));
}

/// Every length around the block and padding edges: the digest of all digests, from OpenSSL.
#[test]
fn padding_edges() {
    let (mut sha1s, mut md4s) = (Vec::new(), Vec::new());
    for length in 0..=200usize {
        let message: Vec<u8> = (0..length).map(|j| (7 * j + length) as u8).collect();
        sha1s.extend(digest::sha1(&message).unwrap());
        md4s.extend(digest::md4(&message).unwrap());
    }
    let of = |digests: &[u8]| digest::sha1(digests).unwrap().to_vec();
    assert_eq!(of(&sha1s), hex("d0de06f4c5cb01efe13d538b17bbc0bd8144a1c2"));
    assert_eq!(of(&md4s), hex("3c698cc2e30719f903cc30979d38bcea8a416ef2"));
}

/// A message in parts is the message in one piece.
#[test]
fn parts_end_to_end() {
    let (peer, authenticator) = ([1; 16], [2; 16]);
    for length in 0..=256 {
        let user: Vec<u8> = (0..length).map(|j| j as u8).collect();
        let whole = [&peer[..], &authenticator, &user].concat();
        let hash = mschap::challenge_hash(&peer, &authenticator, &user).unwrap();
        assert_eq!(hash, digest::sha1(&whole).unwrap()[..8]);
    }
}

/// Two thousand blocks and keys, each made from the last; the end is that of OpenSSL.
#[test]
fn des_chain() {
    let mut key: [u8; 8] = fixed(&hex("0123456789abcdef"));
    let mut block: [u8; 8] = fixed(&hex("4e6f772069732074"));
    for _ in 0..2000 {
        block = des::encrypt(&key, &block);
        key = std::array::from_fn(|i| key[i] ^ block[7 - i]);
    }
    assert_eq!(
        (key.to_vec(), block.to_vec()),
        (hex("b0cbe803fc72c3c4"), hex("66a42606e8679924"))
    );
}
