//! Every call is made by both, on the same octets, and all that it answers and writes is compared.

use std::fmt;

use second::Place;

use crate::call::{by_archive, by_second, Call, ANSWERS};
use crate::packets::text_in;

/// What a call answers, on which both agree.
#[derive(Clone, Copy, PartialEq, Eq, Debug)]
pub struct Answer {
    pub number: u8,
    pub n: usize,
    /// Where the server's text lies, 0 and 0 where none is told.
    pub text: Place,
}

impl Answer {
    /// That number, and zeros.
    pub const fn bare(number: u8) -> Answer {
        Answer {
            number,
            n: 0,
            text: (0, 0),
        }
    }
}

/// A call, what it was made on, and what came of it.
pub struct Difference(String);

impl Difference {
    pub fn new(what: impl Into<String>) -> Difference {
        Difference(what.into())
    }
}

impl fmt::Display for Difference {
    fn fmt(&self, out: &mut fmt::Formatter<'_>) -> fmt::Result {
        out.write_str(&self.0)
    }
}

pub type Run<T> = Result<T, Difference>;

/// One of the two: makes the call on a state and a buffer, and answers the word.
pub type Implementation = fn(&Call, &mut [u8], &mut [u8]) -> u64;

/// Both implementations, and which numbers each function has answered so far.
pub struct Pair {
    first: Side,
    second: Side,
    pub calls: u64,
    seen: [[u64; 24]; ANSWERS.len()],
}

impl Pair {
    /// The archive and the second program.
    pub fn new() -> Pair {
        Pair::of(by_archive, by_second)
    }

    pub fn of(first: Implementation, second: Implementation) -> Pair {
        Pair {
            first: Side::new(first),
            second: Side::new(second),
            calls: 0,
            seen: [[0; 24]; ANSWERS.len()],
        }
    }

    /// Both make the call; the state and the buffer are then what both left.
    pub fn run(&mut self, call: Call, state: &mut [u8], buffer: &mut [u8]) -> Run<Answer> {
        let shift = (self.calls % 8) as usize;
        self.calls += 1;
        self.first.make(&call, shift, state, buffer);
        self.second.make(&call, shift, state, buffer);
        if self.first.word != self.second.word || self.first.memory != self.second.memory {
            return Err(self.difference("the two differ", &call, state, buffer));
        }
        let answer = self.second.answer();
        if let Some(broken) = self.second.broken_promise(&call, answer, state, buffer) {
            return Err(self.difference(broken, &call, state, buffer));
        }
        state.copy_from_slice(self.second.state());
        buffer.copy_from_slice(self.second.buffer());
        self.seen[call.function()][usize::from(answer.number)] += 1;
        Ok(answer)
    }

    /// The call on a copy of the state and a buffer of that room: the answer, the state after it
    /// and the packet written.
    pub fn try_on(
        &mut self,
        call: Call,
        state: &[u8],
        room: usize,
    ) -> Run<(Answer, Vec<u8>, Vec<u8>)> {
        let mut state = state.to_vec();
        let mut buffer = vec![self.calls as u8; room];
        let answer = self.run(call, &mut state, &mut buffer)?;
        buffer.truncate(answer.n);
        Ok((answer, state, buffer))
    }

    /// A call that has no state, and a result of that size.
    pub fn result(&mut self, call: Call, size: usize) -> Run<(Answer, Vec<u8>)> {
        let mut result = vec![self.calls as u8; size];
        let answer = self.run(call, &mut [], &mut result)?;
        Ok((answer, result))
    }

    /// How often each function answered each number.
    pub fn counts(&self) -> impl Iterator<Item = (&'static str, Vec<(u8, u64)>)> + '_ {
        ANSWERS.iter().zip(&self.seen).map(|((name, _), seen)| {
            let numbers = (0..24u8).zip(*seen).filter(|(_, count)| *count > 0);
            (*name, numbers.collect())
        })
    }

    /// The numbers that a function can answer and never did.
    pub fn not_seen(&self) -> Vec<(&'static str, u8)> {
        let mut missing = Vec::new();
        for ((name, numbers), seen) in ANSWERS.iter().zip(&self.seen) {
            let unseen = numbers
                .iter()
                .filter(|number| seen[usize::from(**number)] == 0);
            missing.extend(unseen.map(|number| (*name, *number)));
        }
        missing
    }

    fn difference(&self, what: &str, call: &Call, state: &[u8], buffer: &[u8]) -> Difference {
        Difference(format!(
            "{what}\ncall     {} {call:02x?}\nstate    {}\nbuffer   {}\narchive  {}\nsecond   {}",
            ANSWERS[call.function()].0,
            hex(state),
            hex(buffer),
            self.first,
            self.second,
        ))
    }
}

impl Default for Pair {
    fn default() -> Pair {
        Pair::new()
    }
}

/// What stands between and around the lent octets, and must stay.
const GUARD: u8 = 0x5c;
const GUARDS: usize = 16;

/// One implementation, and what its last call answered and left.
struct Side {
    make: Implementation,
    word: u64,
    /// Guards, the state, guards, the buffer, guards.
    memory: Vec<u8>,
    state: std::ops::Range<usize>,
    buffer: std::ops::Range<usize>,
}

impl Side {
    fn new(make: Implementation) -> Side {
        Side {
            make,
            word: 0,
            memory: Vec::new(),
            state: 0..0,
            buffer: 0..0,
        }
    }

    /// Makes the call on copies that begin at any alignment.
    fn make(&mut self, call: &Call, shift: usize, state: &[u8], buffer: &[u8]) {
        self.memory.clear();
        self.memory.resize(GUARDS + shift, GUARD);
        self.state = self.lay(state);
        self.buffer = self.lay(buffer);
        let (front, back) = self.memory.split_at_mut(self.buffer.start);
        let buffer = &mut back[..buffer.len()];
        self.word = (self.make)(call, &mut front[self.state.clone()], buffer);
    }

    fn lay(&mut self, octets: &[u8]) -> std::ops::Range<usize> {
        let start = self.memory.len();
        self.memory.extend_from_slice(octets);
        let end = self.memory.len();
        self.memory.resize(end + GUARDS, GUARD);
        start..end
    }

    fn state(&self) -> &[u8] {
        &self.memory[self.state.clone()]
    }

    fn buffer(&self) -> &[u8] {
        &self.memory[self.buffer.clone()]
    }

    fn answer(&self) -> Answer {
        let word = self.word as usize;
        Answer {
            number: self.word as u8,
            n: word >> 8 & 0xff_ffff,
            text: (word >> 32 & 0xffff, word >> 48),
        }
    }

    /// What holds of every call, said of both at once since both agree.
    fn broken_promise(
        &self,
        call: &Call,
        answer: Answer,
        state: &[u8],
        buffer: &[u8],
    ) -> Option<&'static str> {
        let refused = answer.number >= 10;
        let fills_buffer = matches!(
            call,
            Call::Read { .. }
                | Call::Md4 { .. }
                | Call::Sha1 { .. }
                | Call::PasswordHash { .. }
                | Call::Des { .. }
                | Call::NtResponse { .. }
                | Call::Authenticator { .. }
        );
        let reads_state = matches!(call, Call::ServerResend);
        let made = matches!(call, Call::PeerNew { .. });
        if refused && !made && (answer.n, self.state(), self.buffer()) != (0, state, buffer) {
            Some("both wrote at a refusal")
        } else if !fills_buffer && self.buffer()[answer.n..] != buffer[answer.n..] {
            Some("both wrote after the packet")
        } else if reads_state && self.state() != state {
            Some("both wrote a state that is only read")
        } else if answer.text != text_due(call, answer) {
            Some("both told another text")
        } else {
            None
        }
    }
}

/// Where the text lies in a packet that was read; other calls and refusals tell none.
fn text_due(call: &Call, answer: Answer) -> Place {
    match call {
        Call::PeerStep { packet, .. } | Call::Read { packet, .. } if answer.number < 10 => {
            text_in(packet)
        }
        _ => (0, 0),
    }
}

impl fmt::Display for Side {
    fn fmt(&self, out: &mut fmt::Formatter<'_>) -> fmt::Result {
        let Answer { number, n, text } = self.answer();
        write!(
            out,
            "answers {number}, n = {n}, text at {text:?} (word {:016x})",
            self.word
        )?;
        write!(out, "\n  state    {}", hex(self.state()))?;
        write!(out, "\n  buffer   {}", hex(self.buffer()))?;
        let mut guards = self.memory.clone();
        guards.drain(self.buffer.clone());
        guards.drain(self.state.clone());
        if guards.iter().any(|octet| *octet != GUARD) {
            write!(out, "\n  and wrote outside of both")?;
        }
        Ok(())
    }
}

fn hex(octets: &[u8]) -> String {
    octets.iter().map(|octet| format!("{octet:02x}")).collect()
}
