//! The comparison finds what is planted: the second program against itself with one flaw.

use compare::call::{by_second, Call};
use compare::layout::{at, peer_of, PEER};
use compare::packets::Exchange;
use compare::pair::{Implementation, Pair};
use compare::parts::PARTS;
use compare::random::Random;

/// What one round says of that implementation beside the second program.
fn difference(planted: Implementation) -> Option<String> {
    round(Pair::of(planted, by_second))
}

/// What one round says where both have the flaw.
fn shared(planted: Implementation) -> Option<String> {
    round(Pair::of(planted, planted))
}

fn round(mut pair: Pair) -> Option<String> {
    for (part, (_, run)) in PARTS.iter().enumerate() {
        if let Err(difference) = run(&mut pair, &mut Random::new(1, 0, part as u64)) {
            return Some(difference.to_string());
        }
    }
    assert_eq!(pair.not_seen(), []);
    None
}

#[test]
fn nothing_where_there_is_nothing() {
    assert_eq!(difference(by_second), None);
}

#[test]
fn a_number() {
    let found = difference(|call, state, out| match by_second(call, state, out) {
        22 => 20,
        word => word,
    });
    let found = found.expect("a difference");
    assert!(found.contains("zt_server_packet"));
    assert!(found.contains("answers 20") && found.contains("answers 22"));
}

#[test]
fn n() {
    assert!(
        difference(|call, state, out| match by_second(call, state, out) {
            2 => 2 | 4 << 8,
            word => word,
        })
        .is_some()
    );
}

#[test]
fn the_upper_half_of_the_word() {
    assert!(difference(|call, state, out| by_second(call, state, out) | 1 << 63).is_some());
}

#[test]
fn one_octet_of_a_state() {
    let found = difference(|call, state, out| {
        let word = by_second(call, state, out);
        if matches!(call, Call::PeerSupply { .. }) && word as u8 == 0 {
            state[PEER - 1] ^= 1;
        }
        word
    });
    assert!(found.is_some());
}

#[test]
fn one_octet_after_the_packet() {
    let found = difference(|call, state, out| {
        let word = by_second(call, state, out);
        let n = (word >> 8) as usize;
        if matches!(call, Call::ServerResend) && word as u8 == 0 && n < out.len() {
            out[n] = !out[n];
        }
        word
    });
    assert!(found.is_some());
}

#[test]
fn a_state_written_at_a_refusal() {
    let found = difference(|call, state, out| {
        let word = by_second(call, state, out);
        if matches!(call, Call::ServerPacket { .. }) && word as u8 == 21 {
            state[3] = 0;
        }
        word
    });
    assert!(found.is_some());
}

#[test]
fn a_wrong_result_of_both() {
    let found = shared(|call, state, out| {
        let word = by_second(call, state, out);
        if matches!(call, Call::Md4 { .. }) && word == 0 {
            out[15] ^= 1;
        }
        word
    });
    assert!(found
        .expect("a difference")
        .starts_with("both differ from what is published"));
}

#[test]
fn a_refusal_of_both_that_writes() {
    let found = shared(|call, state, out| {
        let word = by_second(call, state, out);
        if matches!(call, Call::PeerStep { .. }) && word == 17 && !out.is_empty() {
            out[0] = !out[0];
        }
        word
    });
    assert!(found
        .expect("a difference")
        .starts_with("both wrote at a refusal"));
}

/// A Failure Request that tells whether the table was empty.
#[test]
fn a_wrong_guess_that_tells() {
    let found = shared(|call, state, out| {
        let word = by_second(call, state, out);
        if matches!(call, Call::ServerPacket { table: [], .. }) && word == 60 << 8 {
            out[13] = b'2';
        }
        word
    });
    assert!(found
        .expect("a difference")
        .starts_with("a wrong guess tells two tables apart"));
}

/// L of a packet that is a Success Request by its Code, Type and OpCode.
fn success_length(packet: &[u8]) -> Option<u8> {
    match packet {
        [1, _, 0, length, 26, 3, ..] => Some(*length),
        _ => None,
    }
}

#[test]
fn a_tail_insisted_on() {
    let found = difference(|call, state, out| match call {
        Call::Read { end: 0, packet } if success_length(packet) == Some(51) => 17,
        _ => by_second(call, state, out),
    });
    assert!(found.expect("a difference").contains("zt_read"));
}

#[test]
fn one_octet_after_the_digits_taken() {
    let found = difference(
        |call, state, out| match (call, by_second(call, state, out)) {
            (Call::Read { end: 0, packet }, 17) if success_length(packet) == Some(52) => 0,
            (_, word) => word,
        },
    );
    assert!(found.expect("a difference").contains("zt_read"));
}

/// A message that ends with its digits is refused where what follows it is not like a tail.
#[test]
fn padding_taken_for_a_tail() {
    let found = difference(|call, state, out| match call {
        Call::Read { end: 0, packet }
            if success_length(packet) == Some(51)
                && packet.len() > 51
                && !packet[51..].starts_with(b" M=") =>
        {
            17
        }
        _ => by_second(call, state, out),
    });
    assert!(found.expect("a difference").contains("zt_read"));
}

#[test]
fn another_end_before_the_frame() {
    let found = difference(|call, state, out| match call {
        Call::Read { end: 2.., .. } => 23,
        _ => by_second(call, state, out),
    });
    assert!(found.expect("a difference").contains("zt_read"));
}

/// The retry count cut to what a start allows, in a state that nobody made.
#[test]
fn a_state_written_at_a_resend() {
    let planted: Implementation = |call, state, out| {
        let word = by_second(call, state, out);
        if matches!(call, Call::ServerResend) && word as u8 == 0 {
            state[3] = state[3].min(10);
        }
        word
    };
    assert!(difference(planted)
        .expect("a difference")
        .contains("zt_server_resend"));
    assert!(shared(planted)
        .expect("a difference")
        .starts_with("both wrote a state that is only read"));
}

/// One octet more than a table may have.
#[test]
fn a_table_too_long() {
    let found = difference(|call, state, out| match call {
        Call::AccountsAppend { used, name, .. }
            if used.saturating_add(22 + name.len()) == 65_537 && out.len() >= 65_537 =>
        {
            65_537 << 8
        }
        _ => by_second(call, state, out),
    });
    assert!(found.expect("a difference").contains("zt_accounts_append"));
}

/// The code cut to 16 bits.
#[test]
fn a_code_cut_off() {
    let found = difference(|call, state, out| match *call {
        Call::AccountsAppend {
            used,
            code,
            hash,
            name,
        } => {
            let code = code & 0xffff;
            let cut = Call::AccountsAppend {
                used,
                code,
                hash,
                name,
            };
            by_second(&cut, state, out)
        }
        _ => by_second(call, state, out),
    });
    assert!(found.expect("a difference").contains("zt_accounts_append"));
}

#[test]
fn an_account_appended_to_no_table() {
    let found = difference(
        |call, state, out| match (call, by_second(call, state, out)) {
            (Call::AccountsAppend { .. }, 21) => 0,
            (_, word) => word,
        },
    );
    assert!(found.expect("a difference").contains("zt_accounts_append"));
}

#[test]
fn one_octet_before_the_new_account() {
    let found = shared(|call, state, out| {
        let word = by_second(call, state, out);
        if let (Call::AccountsAppend { used: 1.., .. }, 0) = (call, word as u8) {
            out[0] = !out[0];
        }
        word
    });
    assert!(found
        .expect("a difference")
        .starts_with("both appended something else"));
}

/// The second program's word with another text for each that it tells.
fn with_text(word: u64, text: impl Fn(u64, u64) -> (u64, u64)) -> u64 {
    let (start, length) = (word >> 32 & 0xffff, word >> 48);
    if start == 0 {
        return word;
    }
    let (start, length) = text(start, length);
    word & 0xffff_ffff | start << 32 | length << 48
}

/// A text that starts one octet early, of one call.
fn early(call: &Call, state: &mut [u8], out: &mut [u8]) -> u64 {
    let word = by_second(call, state, out);
    match call {
        Call::PeerStep { .. } => with_text(word, |start, length| (start - 1, length + 1)),
        _ => word,
    }
}

#[test]
fn a_text_that_starts_early() {
    let found = difference(early).expect("a difference");
    assert!(found.contains("zt_peer_step"));
    let found = shared(early).expect("a difference");
    assert!(found.starts_with("both told another text"));
}

/// The text's place is also in the reading.
#[test]
fn a_reading_that_starts_its_text_early() {
    let found = difference(|call, state, out| {
        let word = by_second(call, state, out);
        if matches!(call, Call::Read { .. }) && word >> 32 != 0 {
            out[21] -= 1;
            out[23] += 1;
        }
        word
    });
    assert!(found.expect("a difference").contains("zt_read"));
}

#[test]
fn a_text_that_goes_on_into_the_padding() {
    let found = difference(|call, state, out| match call {
        Call::PeerStep { packet, .. } => with_text(by_second(call, state, out), |start, _| {
            (start, packet.len() as u64 - start)
        }),
        _ => by_second(call, state, out),
    });
    assert!(found.expect("a difference").contains("zt_peer_step"));
}

/// The step without room tells what it tells with room.
fn told_without_room(call: &Call, state: &mut [u8], out: &mut [u8]) -> u64 {
    let (mut other, mut room) = (state.to_vec(), [0; 400]);
    match (call, by_second(call, state, out)) {
        (Call::PeerStep { .. }, 20) => 20 | by_second(call, &mut other, &mut room) >> 32 << 32,
        (_, word) => word,
    }
}

#[test]
fn a_text_told_without_room() {
    let found = difference(told_without_room).expect("a difference");
    assert!(found.contains("answers 20"));
    let found = shared(told_without_room).expect("a difference");
    assert!(found.starts_with("both told another text"));
}

/// A request that is taken changes the stage; one that comes again changes nothing.
#[test]
fn no_text_of_a_request_that_comes_again() {
    let found = difference(|call, state, out| {
        let before = state.to_vec();
        let word = by_second(call, state, out);
        match call {
            Call::PeerStep { .. } if state == before => with_text(word, |_, _| (0, 0)),
            _ => word,
        }
    });
    assert!(found.expect("a difference").contains("zt_peer_step"));
}

#[test]
fn a_text_at_0_without_a_tail() {
    let planted: Implementation = |call, state, out| {
        with_text(by_second(call, state, out), |start, length| match start {
            51 => (0, 0),
            _ => (start, length),
        })
    };
    assert!(difference(planted).is_some());
    let found = shared(planted).expect("a difference");
    assert!(found.starts_with("both told another text"));
}

#[test]
fn a_text_of_a_call_that_has_none() {
    let found = shared(|call, state, out| {
        let word = by_second(call, state, out);
        match call {
            Call::PeerSupply { .. } if word as u8 == 0 => word | 60 << 32,
            _ => word,
        }
    });
    assert!(found
        .expect("a difference")
        .starts_with("both told another text"));
}

/// The number of E= cut to 16 bits.
#[test]
fn a_code_read_and_cut_off() {
    let planted: Implementation = |call, state, out| {
        let word = by_second(call, state, out);
        if matches!(call, Call::Read { .. }) && word as u8 == 0 {
            out[7..13].fill(0);
        }
        word
    };
    assert!(difference(planted)
        .expect("a difference")
        .contains("zt_read"));
    assert!(shared(planted)
        .expect("a difference")
        .starts_with("both read something else"));
}

/// One octet more than a reading has, left as it was.
#[test]
fn a_reading_into_a_longer_buffer() {
    let found = difference(|call, state, out| match call {
        Call::Read { .. } if out.len() == 26 => by_second(call, state, &mut out[..25]),
        _ => by_second(call, state, out),
    });
    assert!(found.expect("a difference").contains("zt_read"));
}

/// L of 1,021.
#[test]
fn a_name_too_long_written() {
    let found = difference(|call, state, out| match *call {
        Call::WriteChallenge {
            challenge, name, ..
        } if challenge.len() == 16 && name.len() == 995 && out.len() >= 1021 => {
            out[..1021].fill(0);
            1021 << 8
        }
        _ => by_second(call, state, out),
    });
    assert!(found.expect("a difference").contains("zt_write_challenge"));
}

/// The retry cut to 8 bits.
#[test]
fn a_retry_cut_off() {
    let planted: Implementation = |call, state, out| {
        let mut cut = *call;
        if let Call::WriteFailureRequest { retry, .. } = &mut cut {
            *retry &= 0xff;
        }
        by_second(&cut, state, out)
    };
    assert!(difference(planted)
        .expect("a difference")
        .contains("zt_write_failure_request"));
    assert!(shared(planted)
        .expect("a difference")
        .starts_with("both wrote what has no form"));
}

/// Nothing after the text's first zero, as a C string would have it.
#[test]
fn a_text_cut_at_a_zero() {
    let found = shared(|call, state, out| {
        let mut cut = *call;
        if let Call::WriteSuccessRequest { text, .. } = &mut cut {
            *text = text.split(|octet| *octet == 0).next().unwrap_or(text);
        }
        by_second(&cut, state, out)
    });
    assert!(found
        .expect("a difference")
        .starts_with("both wrote something else"));
}

/// In CHALLENGE_RESPONSE_SENT, a step by the string that the state's other fields call for,
/// whatever it keeps.
fn computing(call: &Call, state: &mut [u8], out: &mut [u8]) -> u64 {
    let octets = <[u8; PEER]>::try_from(&*state);
    let (Call::PeerStep { .. }, Ok(before @ [1, ..])) = (call, octets) else {
        return by_second(call, state, out);
    };
    let peer = peer_of(&before);
    state[at::PEER_EXPECTED..].copy_from_slice(&Exchange::of(&peer).string());
    let word = by_second(call, state, out);
    state[at::PEER_EXPECTED..].copy_from_slice(&peer.expected);
    word
}

#[test]
fn a_string_computed_when_it_comes() {
    let found = difference(computing).expect("a difference");
    assert!(found.contains("zt_peer_step"));
}

/// Conversations bring no state in which the two strings differ.
#[test]
fn nothing_over_conversations_where_it_is_computed() {
    let (name, run) = PARTS[1];
    assert!(name.contains("conversations"));
    let mut pair = Pair::of(computing, by_second);
    assert!(run(&mut pair, &mut Random::new(1, 0, 1)).is_ok());
}
