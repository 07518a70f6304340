//! What `explain` is held to (the file `stdout` of its crate, and tests/programs), against what
//! this program reads: each field of a packet, and each refusal with its reason.

mod common;

use common::*;
use second::*;

const PEER: &str = include_str!("../../../tests/programs/explain.peer.out");
const SERVER: &str = include_str!("../../../tests/programs/explain.server.out");

#[test]
fn packets_for_the_peer() {
    let given = include_bytes!("../../../tests/programs/explain.peer");
    confirm(End::Peer, given, PEER);
}

#[test]
fn packets_for_the_server() {
    let given = include_bytes!("../../../tests/programs/explain.server");
    confirm(End::Server, given, SERVER);
}

#[test]
fn the_example() {
    let given = include_bytes!("../../../crates/explain/stdin");
    let shown = include_str!("../../../crates/explain/stdout");
    confirm(End::Peer, given, shown);
}

/// `login` shows its packets in the same words, and their octets after them.
#[test]
fn packets_of_logins() {
    let logins = [
        include_str!("../../../crates/login/stdout"),
        include_str!("../../../tests/programs/disabled"),
        include_str!("../../../tests/programs/given"),
        include_str!("../../../tests/programs/retries"),
        include_str!("../../../tests/programs/told"),
    ];
    for login in logins {
        let packets = login.split("\n\n").filter(|part| part.contains(" -> "));
        assert!(packets.clone().count() > 3, "a login without packets");
        for shown in packets {
            confirm_shown(shown);
        }
    }
}

fn confirm_shown(shown: &str) {
    let (words, octets) = shown.split_once("\n    octets ").unwrap();
    let octets = hex(&octets.replace('\n', " "));
    let (way, words) = words.split_at(20);
    let end = match way {
        "  server -> peer    " => End::Peer,
        "  peer -> server    " => End::Server,
        _ => panic!("{way:?} is no way"),
    };
    assert_eq!(words, explained(end, &octets));
}

#[test]
fn every_kind_and_refusal_occurs() {
    let requests = [
        "Challenge",
        "Success Request",
        "Failure Request",
        "EAP Success",
        "EAP Failure",
    ];
    let responses = ["Response", "Success Response", "Failure Response"];
    for (shown, kinds) in [(PEER, &requests[..]), (SERVER, &responses[..])] {
        for kind in kinds {
            assert!(shown.contains(&format!(": {kind}, Identifier ")), "{kind}");
        }
        for number in 10..=17 {
            let refused = format!(": refused with {number}, ");
            assert!(shown.contains(&refused), "{number}");
        }
    }
}

#[test]
fn every_error_and_form_of_a_text_occurs() {
    for code in [646, 647, 648, 649, 691, 709, 0] {
        assert!(PEER.contains(&format!(" E={code}, ")), "{code}");
    }
    for value in ["R=0, ", "R=1, ", "M=\"\"\n", "M=\"w", "none\n"] {
        assert!(PEER.contains(&format!("  {value}")), "{value}");
    }
}

/// Line by line, then whole.
fn confirm(end: End, given: &[u8], shown: &str) {
    let explained = explanation(end, given);
    let pairs = shown.lines().zip(explained.lines());
    for (number, (shown, explained)) in (1..).zip(pairs) {
        assert_eq!(shown, explained, "line {number} of the output");
    }
    assert_eq!(shown, explained);
}

fn explanation(end: End, given: &[u8]) -> String {
    let mut all = String::new();
    let mut last = "ok";
    for (number, line) in (1..).zip(given.split(|&octet| octet == b'\n')) {
        match octets_of(line) {
            Ok(octets) if octets.is_empty() => (),
            Ok(octets) => all += &format!("line {number}: {}\n", explained(end, &octets)),
            Err(column) => {
                all += &format!("line {number}: not hex octets, at column {column}\n");
                last = "failed: not every line could be read";
            }
        }
    }
    all + last + "\n"
}

/// The octets of a line, or the column of the first character that will not do.
fn octets_of(line: &[u8]) -> Result<Vec<u8>, usize> {
    let mut octets = Vec::new();
    let mut rest = line;
    loop {
        rest = match rest {
            [] => return Ok(octets),
            [b' ' | b'\t' | b'\r' | b':', rest @ ..] => rest,
            [b'0', b'x' | b'X', high, low, rest @ ..] | [high, low, rest @ ..]
                if high.is_ascii_hexdigit() && low.is_ascii_hexdigit() =>
            {
                octets.extend(hex(&String::from_utf8_lossy(&[*high, *low])));
                rest
            }
            _ => return Err(line.len() - rest.len() + 1),
        }
    }
}

/// This program's reading or refusal; the rows of document 01 must give the same number.
fn explained(end: End, lent: &[u8]) -> String {
    let read = packet::read(end, lent);
    let mut lines = match (&read, refusal(end, lent)) {
        (Ok(packet), None) => reading(packet, lent),
        (Err(number), Some((row, why))) if *number == row => {
            vec![format!("refused with {number}, {why}")]
        }
        (_, row) => panic!("{lent:02X?} reads as {read:?}, and its row is {row:?}"),
    };
    // With 10 and 11 no L tells where a packet ends.
    if !matches!(read, Err(10 | 11)) {
        lines.extend(padding(lent.len() - length_of(lent)));
    }
    lines.join("\n")
}

fn field(label: &str, value: String) -> String {
    format!("    {label:<16}{value}")
}

fn padding(count: usize) -> Option<String> {
    let octets = if count == 1 { "octet" } else { "octets" };
    let value = format!("{count} {octets} after L, ignored");
    (count > 0).then(|| field("padding", value))
}

fn reading(packet: &Packet, lent: &[u8]) -> Vec<String> {
    let (kind, id, length) = (packet.kind, packet.id.0, packet.length);
    let chapid = if in_first_four(kind) {
        format!(", MS-CHAPv2-ID {}", packet.chapid.0)
    } else {
        String::new()
    };
    let heading = format!("{}, Identifier {id}{chapid}, {length} octets", name(kind));
    let mut lines = vec![heading];
    let fields = fields(packet, lent).into_iter();
    lines.extend(fields.map(|(label, value)| field(label, value)));
    lines
}

fn name(kind: Kind) -> &'static str {
    match kind {
        Kind::Challenge => "Challenge",
        Kind::Response => "Response",
        Kind::SuccessRequest => "Success Request",
        Kind::FailureRequest | Kind::RetryRequest => "Failure Request",
        Kind::SuccessResponse => "Success Response",
        Kind::FailureResponse => "Failure Response",
        Kind::EapSuccess => "EAP Success",
        Kind::EapFailure => "EAP Failure",
    }
}

fn in_first_four(kind: Kind) -> bool {
    !matches!(
        kind,
        Kind::SuccessResponse | Kind::FailureResponse | Kind::EapSuccess | Kind::EapFailure
    )
}

fn fields(packet: &Packet, lent: &[u8]) -> Vec<(&'static str, String)> {
    let tail = quoted(part(lent, packet.tail));
    match packet.kind {
        Kind::Challenge => vec![("challenge", digits(&packet.challenge)), ("name", tail)],
        Kind::Response => vec![
            ("peer challenge", digits(&packet.challenge)),
            ("NT-Response", digits(&packet.response)),
            ("name", tail),
        ],
        Kind::SuccessRequest => vec![
            ("authenticator", format!("S={}", digits(&packet.string))),
            ("text", success_text(packet, &tail)),
        ],
        Kind::FailureRequest => failure_fields(packet, lent, "R=0, not allowed", &tail),
        Kind::RetryRequest => failure_fields(packet, lent, "R=1, allowed", &tail),
        _ => vec![],
    }
}

/// None where the message ends with its digits.
fn success_text(packet: &Packet, tail: &str) -> String {
    let (start, length) = packet.response_at;
    if packet.length == start + length {
        "none".to_string()
    } else {
        format!("M={tail}")
    }
}

fn failure_fields(
    packet: &Packet,
    lent: &[u8],
    retry: &str,
    tail: &str,
) -> Vec<(&'static str, String)> {
    let c = String::from_utf8_lossy(part(lent, packet.challenge_at));
    let error = format!("E={}, {}", packet.code, error(packet.code));
    vec![
        ("error", error),
        ("retry", retry.to_string()),
        ("new challenge", format!("C={c}")),
        ("text", format!("M={tail}")),
    ]
}

/// The names of RFC 2759, section 6, in words; there each begins with `ERROR_`.
fn error(code: u64) -> String {
    let name = match code {
        646 => "RESTRICTED_LOGON_HOURS",
        647 => "ACCT_DISABLED",
        648 => "PASSWD_EXPIRED",
        649 => "NO_DIALIN_PERMISSION",
        691 => "AUTHENTICATION_FAILURE",
        709 => "ERROR_CHANGING_PASSWORD",
        _ => return "another error".to_string(),
    };
    let words = name.replace('_', " ").to_lowercase();
    words
        .replace("acct", "account")
        .replace("passwd", "password")
        .replace("dialin", "dial-in")
}

fn part(lent: &[u8], (start, length): Place) -> &[u8] {
    &lent[start..start + length]
}

fn digits(octets: &[u8]) -> String {
    octets.iter().map(|octet| format!("{octet:02X}")).collect()
}

fn quoted(octets: &[u8]) -> String {
    let shown = octets.iter().map(|&octet| match octet {
        b'"' | b'\\' => format!("\\{}", octet as char),
        b' '..=b'~' => (octet as char).to_string(),
        _ => format!("\\x{octet:02X}"),
    });
    format!("\"{}\"", shown.collect::<String>())
}

/// A refusal's number, its meaning, and why it holds, if it does and none before it did.
type Row = (u8, &'static str, fn(End, &[u8]) -> Option<String>);

/// Document 01, "What a call answers".
const ROWS: [Row; 8] = [
    (10, "fewer than 4 octets lent", no_header),
    (11, "L under 4 or over the octets lent", bad_length),
    (12, "L over 1,020", too_long),
    (13, "Code not for this end", bad_code),
    (
        14,
        "Code 1 or 2 and no Type octet, or Type not 26",
        bad_type,
    ),
    (
        15,
        "no OpCode, or not one of the table for that Code",
        bad_opcode,
    ),
    (16, "L under 9, or MS-Length not L - 5", bad_ms_length),
    (17, "the rest breaks its form", bad_form),
];

/// The number of the first row that holds, with its meaning and reason.
fn refusal(end: End, lent: &[u8]) -> Option<(u8, String)> {
    ROWS.iter().find_map(|(number, meaning, reason)| {
        let reason = reason(end, lent)?;
        Some((*number, format!("{meaning}: {reason}")))
    })
}

fn word(octets: &[u8], at: usize) -> usize {
    usize::from(octets[at]) * 256 + usize::from(octets[at + 1])
}

/// L.
fn length_of(lent: &[u8]) -> usize {
    word(lent, 2)
}

fn no_header(_: End, lent: &[u8]) -> Option<String> {
    match lent.len() {
        1 => Some("1 octet is there".to_string()),
        count => (count < 4).then(|| format!("{count} octets are there")),
    }
}

fn bad_length(_: End, lent: &[u8]) -> Option<String> {
    let (l, count) = (length_of(lent), lent.len());
    if l < 4 {
        return Some(format!("L is {l}"));
    }
    (l > count).then(|| format!("L is {l}, and {count} octets are there"))
}

fn too_long(_: End, lent: &[u8]) -> Option<String> {
    let l = length_of(lent);
    (l > 1020).then(|| format!("L is {l}"))
}

fn bad_code(end: End, lent: &[u8]) -> Option<String> {
    let code = lent[0];
    match (end, code) {
        (End::Peer, 1 | 3 | 4) | (End::Server, 2) => None,
        (End::Peer, 2) => Some(format!("Code {code} is for the server")),
        (End::Server, 1 | 3 | 4) => Some(format!("Code {code} is for the peer")),
        _ => Some(format!("Code {code} is for neither end")),
    }
}

/// Code, and the octet at that place if it is before L.
fn code_and(lent: &[u8], at: usize) -> (u8, Option<u8>) {
    (lent[0], lent[..length_of(lent)].get(at).copied())
}

fn bad_type(_: End, lent: &[u8]) -> Option<String> {
    match code_and(lent, 4) {
        (3 | 4, _) | (_, Some(26)) => None,
        (_, None) => {
            let l = length_of(lent);
            Some(format!("L is {l}, and there is no Type octet"))
        }
        (_, Some(other)) => Some(format!("Type is {other}, not 26")),
    }
}

fn bad_opcode(_: End, lent: &[u8]) -> Option<String> {
    match code_and(lent, 5) {
        (3 | 4, _) | (1, Some(1 | 3 | 4)) | (2, Some(2..=4)) => None,
        (_, None) => {
            let l = length_of(lent);
            Some(format!("L is {l}, and there is no OpCode"))
        }
        (1, Some(other)) => Some(format!("OpCode {other} is none of 1, 3 and 4")),
        (_, Some(other)) => Some(format!("OpCode {other} is none of 2, 3 and 4")),
    }
}

fn bad_ms_length(_: End, lent: &[u8]) -> Option<String> {
    if !matches!(code_and(lent, 5), (1, _) | (2, Some(2))) {
        return None;
    }
    let l = length_of(lent);
    if l < 9 {
        return Some(format!("L is {l}"));
    }
    let (found, right) = (word(lent, 7), l - 5);
    (found != right).then(|| format!("MS-Length is {found}, and L - 5 is {right}"))
}

fn bad_form(_: End, lent: &[u8]) -> Option<String> {
    let packet = &lent[..length_of(lent)];
    match code_and(lent, 5) {
        (1, Some(1)) => bad_challenge(packet),
        (2, Some(2)) => bad_response(packet),
        (1, Some(3)) => broken("Success", success_message(&packet[9..])),
        (1, _) => broken("Failure", failure_message(&packet[9..])),
        (2, Some(3)) => other_length("a Success Response", packet, 6),
        (2, _) => other_length("a Failure Response", packet, 6),
        (3, _) => other_length("an EAP Success", packet, 4),
        _ => other_length("an EAP Failure", packet, 4),
    }
}

fn other_length(what: &str, packet: &[u8], right: usize) -> Option<String> {
    let l = packet.len();
    (l != right).then(|| format!("L of {what} is {l}, not {right}"))
}

/// L first, as it says which fields are there and how long the name is; then the fields in their
/// order (docs/DECISIONS.md: the papers give no order within 17).
fn bad_challenge(packet: &[u8]) -> Option<String> {
    let l = packet.len();
    if l < 27 {
        let why = format!("L is {l}, and a name begins at 26");
        return Some(format!("the Challenge has no name: {why}"));
    }
    let size = packet[9];
    (size != 16).then(|| format!("Value-Size of the Challenge is {size}, not 16"))
}

/// In the same order.
fn bad_response(packet: &[u8]) -> Option<String> {
    let l = packet.len();
    if l < 59 {
        return Some(format!("L of a Response is {l}, under 59"));
    }
    let (size, zeros, flags, name) = (packet[9], &packet[26..34], packet[58], l - 59);
    let broken = if name > 256 {
        format!("the name of the Response has {name} octets, more than 256")
    } else if size != 49 {
        format!("Value-Size of the Response is {size}, not 49")
    } else if zeros != [0; 8] {
        let zeros = digits(zeros);
        format!("octets 26 to 33 of the Response are {zeros}, not all zero")
    } else if flags != 0 {
        format!("flags of the Response are {flags}, not 0")
    } else {
        return None;
    };
    Some(broken)
}

fn broken(which: &str, message: Result<(), String>) -> Option<String> {
    let what = message.err()?;
    Some(format!("the {which} message {what}"))
}

/// Request [1]: after the digits nothing, or ` M=` and any octets.
fn success_message(message: &[u8]) -> Result<(), String> {
    let rest = first(message, 'S')?;
    let is_digit = |octet: &u8| matches!(octet, b'0'..=b'9' | b'A'..=b'F');
    let rest = after_digits(rest, 40, is_digit)
        .ok_or("does not go on with 40 upper-case hex digits after \"S=\"")?;
    if rest.is_empty() || rest.starts_with(b" M=") {
        return Ok(());
    }
    Err("neither ends after its digits nor goes on with \" M=\"".to_string())
}

fn failure_message(message: &[u8]) -> Result<(), String> {
    let rest = first(message, 'E')?;
    let (_, rest) = number(rest, 'E')?;
    let rest = next(rest, 'R', 'E')?;
    let [b'0' | b'1', rest @ ..] = rest else {
        let found = quoted(&rest[..rest.len().min(1)]);
        return Err(format!("has R={found}, neither 0 nor 1"));
    };
    let rest = next(rest, 'C', 'R')?;
    let rest = after_digits(rest, 32, u8::is_ascii_hexdigit)
        .ok_or("does not go on with 32 hex digits after \"C=\"")?;
    let rest = next(rest, 'V', 'C')?;
    let (version, rest) = number(rest, 'V')?;
    if version != 3 {
        return Err(format!("has V={version}, not 3"));
    }
    next(rest, 'M', 'V')?;
    Ok(())
}

fn first(message: &[u8], letter: char) -> Result<&[u8], String> {
    let tag = format!("{letter}=");
    let rest = message.strip_prefix(tag.as_bytes());
    rest.ok_or(format!("does not begin with \"{tag}\""))
}

fn next(rest: &[u8], letter: char, last: char) -> Result<&[u8], String> {
    let tag = format!(" {letter}=");
    let rest = rest.strip_prefix(tag.as_bytes());
    rest.ok_or(format!("does not go on with \"{tag}\" after {last}"))
}

fn after_digits(rest: &[u8], count: usize, is_digit: fn(&u8) -> bool) -> Option<&[u8]> {
    let (digits, rest) = rest.split_at_checked(count)?;
    digits.iter().all(is_digit).then_some(rest)
}

/// 1 to 10 digits, and what follows them.
fn number(rest: &[u8], letter: char) -> Result<(u64, &[u8]), String> {
    let other = rest.iter().position(|octet| !octet.is_ascii_digit());
    let (digits, rest) = rest.split_at(other.unwrap_or(rest.len()));
    match digits.len() {
        0 => Err(format!("has no digits after \"{letter}=\"")),
        1..=10 => Ok((String::from_utf8_lossy(digits).parse().unwrap(), rest)),
        count => Err(format!(
            "has {count} digits after \"{letter}=\", more than 10"
        )),
    }
}
