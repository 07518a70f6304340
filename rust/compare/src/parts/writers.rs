//! The eight writers: names and texts of every length, codes and retries around their bounds, slices
//! of other sizes than are due, and buffers around the packet's length. What both write is the form
//! of document 01, and both read it back.

use second::Place;

use super::readings::read_as;
use crate::call::Call;
use crate::layout::Reading;
use crate::packets::{challenge, eap, failure, response, short, success};
use crate::pair::{Answer, Difference, Pair, Run};
use crate::random::Random;

const MAX_PACKET: usize = 1020;
/// Lengths of which the low 16 bits, or the packet's, are small ones.
const HUGE: [usize; 6] = [1020, 1021, 65_480, 65_536, 65_546, 131_072];

pub fn run(pair: &mut Pair, random: &mut Random) -> Run<()> {
    let mut writers = Writers { pair, random };
    writers.challenges()?;
    writers.responses()?;
    writers.success_requests()?;
    writers.failure_requests()?;
    writers.codes_and_retries()?;
    writers.short_packets()
}

/// What is to be written, and what an end reads in it but for its numbers and its length.
struct Due {
    packet: Vec<u8>,
    end: u8,
    kind: u8,
    code: u64,
    places: [Place; 3],
}

struct Writers<'p> {
    pair: &'p mut Pair,
    random: &'p mut Random,
}

impl Writers<'_> {
    fn numbers(&mut self) -> (u8, u8) {
        (self.random.octet(), self.random.octet())
    }

    fn challenges(&mut self) -> Run<()> {
        for length in (0..=1000).chain(HUGE) {
            let (id, chapid) = self.numbers();
            let (value, name) = (self.random.array(), self.random.octets(length));
            let call = |challenge| Call::WriteChallenge {
                id,
                chapid,
                challenge,
                name: &name,
            };
            let due = (1..=994).contains(&length).then(|| Due {
                packet: challenge(id, chapid, &value, &name),
                end: 0,
                kind: 0,
                code: 0,
                places: [(10, 16), (0, 0), (26, length)],
            });
            self.write(call(&value), due)?;
            self.other_sizes(16, call)?;
        }
        Ok(())
    }

    fn responses(&mut self) -> Run<()> {
        for length in (0..=260).chain(HUGE) {
            let (id, chapid) = self.numbers();
            let (own, nt): ([u8; 16], [u8; 24]) = (self.random.array(), self.random.array());
            let name = self.random.octets(length);
            let call = |peer_challenge, nt_response| Call::WriteResponse {
                id,
                chapid,
                peer_challenge,
                nt_response,
                name: &name,
            };
            let due = (length <= 256).then(|| Due {
                packet: response(id, chapid, &own, &nt, &name),
                end: 1,
                kind: 1,
                code: 0,
                places: [(10, 16), (34, 24), (59, length)],
            });
            self.write(call(&own, &nt), due)?;
            self.other_sizes(16, |slice| call(slice, &nt))?;
            self.other_sizes(24, |slice| call(&own, slice))?;
        }
        Ok(())
    }

    fn success_requests(&mut self) -> Run<()> {
        for length in (0..=970).chain(HUGE) {
            let (id, chapid) = self.numbers();
            let (value, text) = (self.random.array(), self.random.octets(length));
            let call = |string| Call::WriteSuccessRequest {
                id,
                chapid,
                string,
                text: &text,
            };
            let due = (length <= 966).then(|| Due {
                packet: success(id, chapid, &value, &text),
                end: 0,
                kind: 2,
                code: 0,
                places: [(0, 0), (11, 40), (54, length)],
            });
            self.write(call(&value), due)?;
            self.other_sizes(20, call)?;
        }
        Ok(())
    }

    /// Texts of every length after codes of one to ten digits.
    fn failure_requests(&mut self) -> Run<()> {
        for digits in 1..=10 {
            let (least, most) = (10u64.pow(digits - 1), 10u64.pow(digits) - 1);
            for length in (0..=964 - digits as usize).chain(HUGE) {
                let any = least + self.random.number() % (most - least + 1);
                let code = self.random.pick(&[least, most, any]);
                let retry = self.random.below(2) as u64;
                self.failure_request(code, retry, length)?;
            }
        }
        Ok(())
    }

    /// Those that have a form, and others that would have one if they were cut.
    fn codes_and_retries(&mut self) -> Run<()> {
        let codes = [
            0,
            9,
            10,
            691,
            65_536 + 691,
            (1 << 32) - 1,
            (1 << 32) + 691,
            9_999_999_999,
            10_000_000_000,
            10_000_000_691,
            u64::MAX,
        ];
        let retries = [0, 1, 2, 255, 256, 257, 1 << 32, (1 << 32) + 1, u64::MAX];
        for code in codes {
            for retry in retries {
                for length in [0, 1, 17, 952, 953, 954, 961, 962, 963] {
                    self.failure_request(code, retry, length)?;
                }
            }
        }
        Ok(())
    }

    fn failure_request(&mut self, code: u64, retry: u64, length: usize) -> Run<()> {
        let (id, chapid) = self.numbers();
        let (c, text) = (self.random.array(), self.random.octets(length));
        let call = |challenge| Call::WriteFailureRequest {
            id,
            chapid,
            code,
            retry,
            challenge,
            text: &text,
        };
        let digits = code.to_string().len();
        let has_form = digits <= 10 && retry <= 1 && 57 + digits + length <= MAX_PACKET;
        let due = has_form.then(|| Due {
            packet: failure(id, chapid, code, retry as u8, &c, &text),
            end: 0,
            kind: 3 + retry as u8,
            code,
            places: [(18 + digits, 32), (0, 0), (57 + digits, length)],
        });
        self.write(call(&c), due)?;
        self.other_sizes(16, call)
    }

    fn short_packets(&mut self) -> Run<()> {
        for id in 0..=255 {
            let rows = [
                (Call::WriteSuccessResponse { id }, short(2, id, 3), 1, 5),
                (Call::WriteFailureResponse { id }, short(2, id, 4), 1, 6),
                (Call::WriteEapSuccess { id }, eap(3, id), 0, 7),
                (Call::WriteEapFailure { id }, eap(4, id), 0, 8),
            ];
            for (call, packet, end, kind) in rows {
                let due = Due {
                    packet,
                    end,
                    kind,
                    code: 0,
                    places: [(0, 0); 3],
                };
                self.write(call, Some(due))?;
            }
        }
        Ok(())
    }

    /// Now and then: 23 for a slice of another size than is due.
    fn other_sizes<'a>(&mut self, due: usize, call: impl Fn(&'a [u8]) -> Call<'a>) -> Run<()> {
        static OCTETS: [u8; 300] = [0x5a; 300];
        if self.random.once_in(8) {
            for size in [0, due - 1, due + 1, due + 256] {
                self.refused(call(&OCTETS[..size]))?;
            }
        }
        Ok(())
    }

    /// 23 whatever the room is.
    fn refused(&mut self, call: Call) -> Run<()> {
        for room in [0, 4, MAX_PACKET, 2000] {
            let (answer, _) = self.pair.result(call, room)?;
            if answer != Answer::bare(23) {
                return Err(Difference::new(format!(
                    "both wrote what has no form\n{call:02x?}"
                )));
            }
        }
        Ok(())
    }

    /// 20 without room, and else the packet; or 23 where there is none.
    fn write(&mut self, call: Call, due: Option<Due>) -> Run<()> {
        let Some(due) = due else {
            return self.refused(call);
        };
        let n = due.packet.len();
        for room in [0, n - 1, n, n + 1, 1100] {
            let (answer, written) = self.pair.result(call, room)?;
            let number = if room < n { 20 } else { 0 };
            if answer.number != number || number == 0 && written[..answer.n] != due.packet {
                return Err(Difference::new(format!(
                    "both wrote something else\n{call:02x?}\nroom     {room}\nboth     {answer:?} {written:02x?}"
                )));
            }
        }
        self.read_back(&due)
    }

    fn read_back(&mut self, due: &Due) -> Run<()> {
        let packet = &due.packet;
        let has_chapid = due.kind < 5;
        let reading = Reading {
            kind: due.kind,
            id: packet[1],
            chapid: if has_chapid { packet[6] } else { 0 },
            length: packet.len() as u16,
            code: due.code,
            places: due.places,
        };
        read_as(self.pair, due.end, packet, Some(&reading))
    }
}
