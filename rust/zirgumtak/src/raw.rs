//! The archive's functions, over slices of any size.
//!
//! Each answers the word of `zirgumtak.h`: a number in bits 0 to 7, n in bits 8 to 31, and of a
//! peer's step and a reading the start and length of the server's text in bits 32 to 47 and 48 to
//! 63. A slice of another size than is due is answered 23. The rest of this crate fixes the sizes by
//! type; these functions, public with the feature `raw`, are for programs that test the sizes.
#![allow(unsafe_code)]

/// The function of one line of the list below. Its arguments are taken one by one: what the safe
/// function has, what the archive's has, what is passed. A slice is passed as pointer and length.
macro_rules! function {
    ({$($head:tt)*} ($($safe:tt)*) ($($theirs:tt)*) ($($passed:tt)*) reads $slice:ident, $($rest:tt)*) => {
        function! {
            {$($head)*} ($($safe)* $slice: &[u8],) ($($theirs)* _: *const u8, _: usize,)
            ($($passed)* $slice.as_ptr(), $slice.len(),) $($rest)*
        }
    };
    ({$($head:tt)*} ($($safe:tt)*) ($($theirs:tt)*) ($($passed:tt)*) writes $slice:ident, $($rest:tt)*) => {
        function! {
            {$($head)*} ($($safe)* $slice: &mut [u8],) ($($theirs)* _: *mut u8, _: usize,)
            ($($passed)* $slice.as_mut_ptr(), $slice.len(),) $($rest)*
        }
    };
    ({$($head:tt)*} ($($safe:tt)*) ($($theirs:tt)*) ($($passed:tt)*) $number:ident $argument:ident, $($rest:tt)*) => {
        function! {
            {$($head)*} ($($safe)* $argument: $number,) ($($theirs)* _: $number,)
            ($($passed)* $argument,) $($rest)*
        }
    };
    ({$(#[$doc:meta])* $name:ident = $symbol:ident} ($($safe:tt)*) ($($theirs:tt)*) ($($passed:tt)*) $(,)?) => {
        $(#[$doc])*
        pub fn $name($($safe)*) -> u64 {
            extern "C" {
                fn $symbol($($theirs)*) -> u64;
            }
            // SAFETY: the archive's functions take any numbers and any octets. They read and write
            // within the pointers and lengths that they are given, write only through `*mut`, and
            // keep no pointer. A slice's octets are there, and one that is lent for writing
            // overlaps no other.
            unsafe { $symbol($($passed)*) }
        }
    };
}

macro_rules! functions {
    ($($(#[$doc:meta])* $name:ident = $symbol:ident($($arguments:tt)*);)*) => {
        $(function! { {$(#[$doc])* $name = $symbol} () () () $($arguments)*, })*
    };
}

functions! {
    /// Makes a peer.
    peer_new = zt_peer_new(writes state, reads name, reads hash);
    /// A packet for the peer.
    peer_step = zt_peer_step(writes state, reads packet, reads random, writes reply);
    /// Credentials for a waiting peer.
    peer_supply = zt_peer_supply(writes state, reads name, reads hash, reads random, writes reply);
    /// The end of a waiting peer.
    peer_give_up = zt_peer_give_up(writes state);
    /// Makes a server.
    server_new = zt_server_new(writes state);
    /// The server's Challenge.
    server_start = zt_server_start(writes state, u8 identifier, reads challenge, reads name,
        u64 retries, writes reply);
    /// A packet for the server.
    server_packet = zt_server_packet(writes state, reads packet, reads table, reads fresh,
        writes reply);
    /// The outstanding request again.
    server_resend = zt_server_resend(reads state, writes reply);
    /// The archive's version, and no answer: major * 10000 + minor * 100 + patch.
    version = zt_version();
    /// What an end, 0 the peer or 1 the server, reads in a packet.
    read = zt_read(u8 end, reads packet, writes reading);
    /// A Challenge.
    write_challenge = zt_write_challenge(u8 identifier, u8 chap_id, reads challenge, reads name,
        writes out);
    /// A Response.
    write_response = zt_write_response(u8 identifier, u8 chap_id, reads peer_challenge,
        reads nt_response, reads name, writes out);
    /// A Success Request; the authenticator string comes as octets.
    write_success_request = zt_write_success_request(u8 identifier, u8 chap_id, reads string,
        reads text, writes out);
    /// A Failure Request.
    write_failure_request = zt_write_failure_request(u8 identifier, u8 chap_id, u64 code,
        u64 retry, reads challenge, reads text, writes out);
    /// A Success Response.
    write_success_response = zt_write_success_response(u8 identifier, writes out);
    /// A Failure Response.
    write_failure_response = zt_write_failure_response(u8 identifier, writes out);
    /// EAP Success.
    write_eap_success = zt_write_eap_success(u8 identifier, writes out);
    /// EAP Failure.
    write_eap_failure = zt_write_eap_failure(u8 identifier, writes out);
    /// Whether an account table is well formed.
    accounts_check = zt_accounts_check(reads table);
    /// An account after the table that is the buffer's first `used` octets.
    accounts_append = zt_accounts_append(writes table, usize used, u64 code, reads hash,
        reads name);
    /// MD4.
    md4 = zt_md4(reads data, writes digest);
    /// SHA-1.
    sha1 = zt_sha1(reads data, writes digest);
    /// The hash of a password's UTF-16 units, each low octet first.
    password_hash = zt_password_hash(reads units, writes hash);
    /// One block enciphered with DES.
    des = zt_des(reads key, reads block, writes out);
    /// The NT-Response of RFC 2759, 8.1.
    nt_response = zt_nt_response(reads authenticator_challenge, reads peer_challenge, reads user,
        reads hash, writes out);
    /// The authenticator string of RFC 2759, 8.7, as octets.
    authenticator = zt_authenticator(reads hash, reads nt_response, reads peer_challenge,
        reads authenticator_challenge, reads user, writes out);
}
