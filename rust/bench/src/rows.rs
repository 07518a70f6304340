//! The rows of the table: each call, made by both on the same octets.

use std::hint::black_box;

use compare::boundary as second;
use compare::boundary::Told;
use compare::call::{by_archive, by_second, Call};
use compare::layout::{peer_of, PEER, READING, SERVER};
use compare::packets::{
    account, bare_success, challenge, eap, failure, response, short, success, Exchange,
};
use zirgumtak::{raw, Octets16};

use crate::timing::in_turn;

pub struct Row {
    pub name: String,
    /// Nanoseconds for one call.
    pub ours: f64,
    pub other: f64,
}

const OWN: Octets16 = [0x21; 16];
const THEIRS: Octets16 = [0x5b; 16];
const HASH: Octets16 = [0x44; 16];
const FRESH: Octets16 = [0x66; 16];
const ID: u8 = 7;
const TEXT: &[u8] = b"This account is disabled: ask the office.";

/// Times every row and shows it.
pub fn each(batches: usize, mut show: impl FnMut(&Row)) {
    let mut rows = Rows {
        batches,
        show: &mut show,
    };
    rows.digests();
    rows.arithmetic();
    rows.table();
    rows.judged_responses();
    rows.peer_step();
    rows.readings();
    rows.writers();
}

struct Rows<'s> {
    batches: usize,
    show: &'s mut dyn FnMut(&Row),
}

impl Rows<'_> {
    fn digests(&mut self) {
        for (size, name) in [(64, "64 octets"), (65_536, "64 KiB")] {
            let data = vec![0xa5; size];
            self.stateless(&format!("MD4, {name}"), Call::Md4 { data: &data }, 16);
            self.stateless(&format!("SHA-1, {name}"), Call::Sha1 { data: &data }, 20);
        }
    }

    fn arithmetic(&mut self) {
        let call = Call::Des {
            key: &[0x13; 8],
            block: &[0x01; 8],
        };
        self.stateless("DES, one block", call, 8);
        let call = Call::NtResponse {
            authenticator_challenge: &THEIRS,
            peer_challenge: &OWN,
            user: b"User",
            hash: &HASH,
        };
        self.stateless("NT-Response", call, 24);
    }

    /// The walk alone.
    fn table(&mut self) {
        let table = table_of(2500);
        let call = Call::AccountsCheck { table: &table };
        self.stateless("checking a table of 2,500 accounts", call, 0);
    }

    /// A right Response by the last account of the table: the whole walk, the arithmetic of both
    /// the Response and the authenticator string, and a Success Request written.
    fn judged_responses(&mut self) {
        let state = started();
        for (accounts, words) in [
            (1, "1 account"),
            (100, "100 accounts"),
            (2500, "2,500 accounts"),
        ] {
            let name = user(accounts - 1);
            let table = table_of(accounts);
            let exchange = Exchange {
                name,
                hash: HASH,
                theirs: THEIRS,
                own: OWN,
            };
            let packet = exchange.response(ID, ID);
            let call = Call::ServerPacket {
                packet: &packet,
                table: &table,
                fresh: &FRESH,
            };
            self.on_state(&format!("judged Response, {words}"), call, &state);
        }
    }

    fn peer_step(&mut self) {
        let mut state = vec![0; PEER];
        let call = Call::PeerNew {
            name: b"User",
            hash: &HASH,
        };
        made_alike(call, &mut state, &mut []);
        let packet = challenge(ID, ID, &THEIRS, b"server");
        let call = Call::PeerStep {
            packet: &packet,
            random: &OWN,
        };
        self.on_state("peer step that makes a Response", call, &state);
        self.peer_step_on_a_struct(call, &state, &packet);
        made_alike(call, &mut state, &mut [0; 400]);
        self.success_taken(&state);
        self.failure_taken(&state);
    }

    /// The server's string, to the Response that the state keeps.
    fn success_taken(&mut self, state: &[u8]) {
        let exchange = Exchange {
            name: b"User".to_vec(),
            hash: HASH,
            theirs: THEIRS,
            own: OWN,
        };
        let packet = success(ID + 1, ID + 1, &exchange.string(), b"");
        let call = Call::PeerStep {
            packet: &packet,
            random: &OWN,
        };
        self.on_state("peer step that takes a Success Request", call, state);
    }

    fn failure_taken(&mut self, state: &[u8]) {
        let packet = failure(ID + 1, ID + 1, 647, 0, &FRESH, TEXT);
        let call = Call::PeerStep {
            packet: &packet,
            random: &OWN,
        };
        let name = "peer step that takes a Failure Request with a text";
        self.on_state(name, call, state);
    }

    /// The other without octets: on a copy of its own struct.
    fn peer_step_on_a_struct(&mut self, call: Call, state: &[u8], packet: &[u8]) {
        let fresh = peer_of(state.try_into().expect("a peer's state"));
        let (mut room, mut other_room) = ([0; 400], [0; 400]);
        let mut octets = state.to_vec();
        let times = in_turn(
            self.batches,
            || {
                octets.copy_from_slice(state);
                black_box(by_archive(black_box(&call), &mut octets, &mut room));
            },
            || {
                let mut peer = fresh.clone();
                black_box(peer.step(black_box(packet), &OWN, &mut other_room));
                black_box(&peer);
            },
        );
        self.row("the same, the other on its own struct", times);
    }

    fn readings(&mut self) {
        let packets = [
            ("a Challenge", 0, challenge(ID, ID, &THEIRS, b"server")),
            (
                "a Response",
                1,
                response(ID, ID, &OWN, &[0x82; 24], b"User"),
            ),
            ("a Success Request", 0, success(ID, ID, &[0x40; 20], b"")),
            (
                "a Success Request without a tail",
                0,
                bare_success(ID, ID, &[0x40; 20]),
            ),
            ("a Failure Request", 0, failure(ID, ID, 691, 1, &FRESH, b"")),
            (
                "a Failure Request with a text",
                0,
                failure(ID, ID, 647, 0, &FRESH, TEXT),
            ),
            ("a Success Response", 1, short(2, ID, 3)),
            ("a Failure Response", 1, short(2, ID, 4)),
            ("EAP Success", 0, eap(3, ID)),
            ("EAP Failure", 0, eap(4, ID)),
        ];
        for (name, end, packet) in &packets {
            self.alone(
                &format!("reading {name}"),
                Call::Read { end: *end, packet },
                READING,
                |out| raw::read(black_box(*end), black_box(packet), out),
                |out| second::read(black_box(*end), black_box(packet), out),
            );
        }
    }

    fn writers(&mut self) {
        let (id, chapid, challenge, name) = black_box((ID, ID, &THEIRS, b"server"));
        self.alone(
            "writing a Challenge",
            Call::WriteChallenge {
                id,
                chapid,
                challenge,
                name,
            },
            400,
            |out| raw::write_challenge(id, chapid, challenge, name, out),
            |out| second::write_challenge(id, chapid, challenge, name, out),
        );
        self.success_written();
        self.failure_written();
        self.alone(
            "writing EAP Success",
            Call::WriteEapSuccess { id },
            400,
            |out| raw::write_eap_success(id, out),
            |out| second::write_eap_success(id, out),
        );
    }

    fn success_written(&mut self) {
        let (id, chapid, string, text) = black_box((ID, ID, &[0x40; 20], TEXT));
        self.alone(
            "writing a Success Request with a text",
            Call::WriteSuccessRequest {
                id,
                chapid,
                string,
                text,
            },
            400,
            |out| raw::write_success_request(id, chapid, string, text, out),
            |out| second::write_success_request(id, chapid, string, text, out),
        );
    }

    fn failure_written(&mut self) {
        let (id, chapid, challenge, text) = black_box((ID, ID, &FRESH, TEXT));
        let (code, retry) = black_box((647, 0));
        self.alone(
            "writing a Failure Request with a text",
            Call::WriteFailureRequest {
                id,
                chapid,
                code,
                retry,
                challenge,
                text,
            },
            400,
            |out| raw::write_failure_request(id, chapid, code, retry, challenge, text, out),
            |out| second::write_failure_request(id, chapid, code, retry, challenge, text, out),
        );
    }

    /// The call's functions themselves, without the choice among all calls, since they are short.
    fn alone(
        &mut self,
        name: &str,
        call: Call,
        size: usize,
        ours: impl Fn(&mut [u8]) -> u64,
        other: impl Fn(&mut [u8]) -> Told,
    ) {
        let (mut ours_room, mut other_room) = (vec![0; size], vec![0; size]);
        made_alike(call, &mut [], &mut ours_room);
        let times = in_turn(
            self.batches,
            || {
                black_box(ours(black_box(&mut ours_room)));
            },
            || {
                black_box(second::word(other(black_box(&mut other_room))));
            },
        );
        self.row(name, times);
    }

    fn stateless(&mut self, name: &str, call: Call, result: usize) {
        let (mut ours_room, mut other_room) = (vec![0; result], vec![0; result]);
        made_alike(call, &mut [], &mut ours_room);
        let times = in_turn(
            self.batches,
            || {
                black_box(by_archive(black_box(&call), &mut [], &mut ours_room));
            },
            || {
                black_box(by_second(black_box(&call), &mut [], &mut other_room));
            },
        );
        self.row(name, times);
    }

    /// Each call on a fresh copy of the state.
    fn on_state(&mut self, name: &str, call: Call, state: &[u8]) {
        let (mut ours_room, mut other_room) = ([0; 400], [0; 400]);
        let (mut ours_state, mut other_state) = (state.to_vec(), state.to_vec());
        made_alike(call, &mut ours_state, &mut ours_room);
        let times = in_turn(
            self.batches,
            || {
                ours_state.copy_from_slice(state);
                black_box(by_archive(
                    black_box(&call),
                    &mut ours_state,
                    &mut ours_room,
                ));
            },
            || {
                other_state.copy_from_slice(state);
                black_box(by_second(
                    black_box(&call),
                    &mut other_state,
                    &mut other_room,
                ));
            },
        );
        self.row(name, times);
    }

    fn row(&mut self, name: &str, (ours, other): (f64, f64)) {
        let name = name.to_string();
        (self.show)(&Row { name, ours, other });
    }
}

/// What is timed is a call that both make alike and do not refuse.
fn made_alike(call: Call, state: &mut [u8], out: &mut [u8]) {
    let (mut other_state, mut other_out) = (state.to_vec(), out.to_vec());
    let word = by_archive(&call, state, out);
    assert_eq!(
        word,
        by_second(&call, &mut other_state, &mut other_out),
        "{call:02x?}"
    );
    assert_eq!(
        (state, out),
        (&mut other_state[..], &mut other_out[..]),
        "{call:02x?}"
    );
    assert!((word as u8) < 10, "{call:02x?} is refused");
}

/// A server that has sent its Challenge.
fn started() -> Vec<u8> {
    let mut state = vec![0; SERVER];
    made_alike(Call::ServerNew, &mut state, &mut []);
    let call = Call::ServerStart {
        identifier: ID,
        challenge: &THEIRS,
        name: b"server",
        retries: 3,
    };
    made_alike(call, &mut state, &mut [0; 400]);
    state
}

/// Names of one length; 2,500 accounts fill a table.
fn table_of(accounts: usize) -> Vec<u8> {
    (0..accounts)
        .flat_map(|i| account(0, &HASH, &user(i)))
        .collect()
}

fn user(number: usize) -> Vec<u8> {
    format!("{number:04}").into_bytes()
}
