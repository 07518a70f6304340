//! What a call answers: document 01's numbers as types.

use core::fmt;

/// A call that was not refused. The octets are those written to the start of the lent buffer.
#[derive(Clone, Copy, PartialEq, Eq, Debug)]
#[non_exhaustive]
pub enum Answer<'b> {
    /// 0: the packet to send.
    Written(&'b [u8]),
    /// 1: the peer waits for [`supply`](crate::Peer::supply) or [`give_up`](crate::Peer::give_up).
    NeedsCredentials,
    /// 2: authenticated. A server's EAP Success to send; nothing from a peer.
    Authenticated(&'b [u8]),
    /// 3: ended without. A server's EAP Failure to send; nothing from a peer.
    Ended(&'b [u8]),
}

impl<'b> Answer<'b> {
    /// The number of the answer.
    pub fn number(self) -> u8 {
        match self {
            Answer::Written(_) => 0,
            Answer::NeedsCredentials => 1,
            Answer::Authenticated(_) => 2,
            Answer::Ended(_) => 3,
        }
    }

    /// The packet that was written, of no octets where there is none.
    pub fn packet(self) -> &'b [u8] {
        match self {
            Answer::Written(packet) | Answer::Authenticated(packet) | Answer::Ended(packet) => {
                packet
            }
            Answer::NeedsCredentials => &[],
        }
    }
}

/// A call that was refused: it changed nothing and wrote nothing. The values are the numbers.
#[derive(Clone, Copy, PartialEq, Eq, Debug)]
#[non_exhaustive]
#[repr(u8)]
pub enum Refusal {
    /// Fewer than 4 octets lent.
    Short = 10,
    /// Length under 4 or over the octets lent.
    BadLength = 11,
    /// Length over 1,020.
    TooLong = 12,
    /// Code not for this end.
    BadCode = 13,
    /// No Type octet where one is due, or a Type other than 26.
    BadType = 14,
    /// No OpCode, or not one for that Code.
    BadOpCode = 15,
    /// Length under 9, or MS-Length other than Length - 5.
    BadMsLength = 16,
    /// The rest of the packet breaks its form.
    BadForm = 17,
    /// Identifier or MS-CHAPv2-ID is not the one due.
    WrongIdentifier = 18,
    /// This stage does not take this packet or call.
    NotTaken = 19,
    /// What is to be written is longer than the buffer.
    NoRoom = 20,
    /// The account table is malformed.
    BadTable = 21,
    /// A Failure Request is due, and the fresh challenge equals the outstanding one.
    SameChallenge = 22,
    /// An argument outside its size.
    BadArgument = 23,
}

impl Refusal {
    /// All of them, in the order of their numbers.
    pub const ALL: &'static [Refusal] = &[
        Refusal::Short,
        Refusal::BadLength,
        Refusal::TooLong,
        Refusal::BadCode,
        Refusal::BadType,
        Refusal::BadOpCode,
        Refusal::BadMsLength,
        Refusal::BadForm,
        Refusal::WrongIdentifier,
        Refusal::NotTaken,
        Refusal::NoRoom,
        Refusal::BadTable,
        Refusal::SameChallenge,
        Refusal::BadArgument,
    ];

    /// The number of the refusal, 10 to 23.
    pub fn number(self) -> u8 {
        self as u8
    }

    fn words(self) -> &'static str {
        match self {
            Refusal::Short => "fewer than 4 octets lent",
            Refusal::BadLength => "Length under 4 or over the octets lent",
            Refusal::TooLong => "Length over 1,020",
            Refusal::BadCode => "Code not for this end",
            Refusal::BadType => "no Type, or not 26",
            Refusal::BadOpCode => "no OpCode, or not one for that Code",
            Refusal::BadMsLength => "Length under 9, or MS-Length not Length - 5",
            Refusal::BadForm => "the packet breaks its form",
            Refusal::WrongIdentifier => "wrong identifier",
            Refusal::NotTaken => "not taken in this stage",
            Refusal::NoRoom => "no room for what is to be written",
            Refusal::BadTable => "account table malformed",
            Refusal::SameChallenge => "fresh challenge equals the outstanding one",
            Refusal::BadArgument => "an argument outside its size",
        }
    }
}

impl fmt::Display for Refusal {
    fn fmt(&self, out: &mut fmt::Formatter<'_>) -> fmt::Result {
        out.write_str(self.words())
    }
}

impl core::error::Error for Refusal {}

/// The archive's word, with the buffer that it wrote to.
pub(crate) fn answer_of(word: u64, buffer: &[u8]) -> Result<Answer<'_>, Refusal> {
    let written = &buffer[..(word >> 8 & 0xff_ffff) as usize];
    match word as u8 {
        0 => Ok(Answer::Written(written)),
        1 => Ok(Answer::NeedsCredentials),
        2 => Ok(Answer::Authenticated(written)),
        3 => Ok(Answer::Ended(written)),
        number => Err(refusal_of(number)),
    }
}

/// The part of a packet that the archive's word tells as the server's text, which never starts at 0.
pub(crate) fn text_of(word: u64, packet: &[u8]) -> Option<&[u8]> {
    let (start, length) = (word >> 32 & 0xffff, word >> 48);
    (start > 0).then(|| &packet[start as usize..][..length as usize])
}

/// The word of a call that writes no packet.
pub(crate) fn done_of(word: u64) -> Result<(), Refusal> {
    answer_of(word, &[]).map(|_| ())
}

fn refusal_of(number: u8) -> Refusal {
    let found = Refusal::ALL
        .iter()
        .find(|refusal| refusal.number() == number);
    *found.expect("an archive of this crate's version answers 0 to 3 and 10 to 23")
}
