//! A call of the boundary: its arguments, but for the state and the buffer that it writes (a reading's
//! octets, a writer's packet).

use zirgumtak::raw;

use crate::boundary as second;

#[derive(Clone, Copy, Debug)]
pub enum Call<'a> {
    PeerNew {
        name: &'a [u8],
        hash: &'a [u8],
    },
    PeerStep {
        packet: &'a [u8],
        random: &'a [u8],
    },
    PeerSupply {
        name: &'a [u8],
        hash: &'a [u8],
        random: &'a [u8],
    },
    PeerGiveUp,
    ServerNew,
    ServerStart {
        identifier: u8,
        challenge: &'a [u8],
        name: &'a [u8],
        retries: u64,
    },
    ServerPacket {
        packet: &'a [u8],
        table: &'a [u8],
        fresh: &'a [u8],
    },
    ServerResend,
    Read {
        end: u8,
        packet: &'a [u8],
    },
    AccountsCheck {
        table: &'a [u8],
    },
    AccountsAppend {
        used: usize,
        code: u64,
        hash: &'a [u8],
        name: &'a [u8],
    },
    Md4 {
        data: &'a [u8],
    },
    Sha1 {
        data: &'a [u8],
    },
    PasswordHash {
        units: &'a [u8],
    },
    Des {
        key: &'a [u8],
        block: &'a [u8],
    },
    NtResponse {
        authenticator_challenge: &'a [u8],
        peer_challenge: &'a [u8],
        user: &'a [u8],
        hash: &'a [u8],
    },
    Authenticator {
        hash: &'a [u8],
        nt_response: &'a [u8],
        peer_challenge: &'a [u8],
        authenticator_challenge: &'a [u8],
        user: &'a [u8],
    },
    WriteChallenge {
        id: u8,
        chapid: u8,
        challenge: &'a [u8],
        name: &'a [u8],
    },
    WriteResponse {
        id: u8,
        chapid: u8,
        peer_challenge: &'a [u8],
        nt_response: &'a [u8],
        name: &'a [u8],
    },
    WriteSuccessRequest {
        id: u8,
        chapid: u8,
        string: &'a [u8],
        text: &'a [u8],
    },
    WriteFailureRequest {
        id: u8,
        chapid: u8,
        code: u64,
        retry: u64,
        challenge: &'a [u8],
        text: &'a [u8],
    },
    WriteSuccessResponse {
        id: u8,
    },
    WriteFailureResponse {
        id: u8,
    },
    WriteEapSuccess {
        id: u8,
    },
    WriteEapFailure {
        id: u8,
    },
}

use Call::*;

/// Each function and every number that it can answer (document 01, "What a call answers", and the
/// boundary's own rule for sizes).
pub const ANSWERS: [(&str, &[u8]); 25] = [
    ("zt_peer_new", &[0, 23]),
    (
        "zt_peer_step",
        &[0, 1, 2, 3, 10, 11, 12, 13, 14, 15, 16, 17, 18, 19, 20, 23],
    ),
    ("zt_peer_supply", &[0, 19, 20, 23]),
    ("zt_peer_give_up", &[3, 19, 23]),
    ("zt_server_new", &[0, 23]),
    ("zt_server_start", &[0, 19, 20, 23]),
    (
        "zt_server_packet",
        &[
            0, 2, 3, 10, 11, 12, 13, 14, 15, 16, 17, 18, 19, 20, 21, 22, 23,
        ],
    ),
    ("zt_server_resend", &[0, 19, 20, 23]),
    ("zt_read", &[0, 10, 11, 12, 13, 14, 15, 16, 17, 23]),
    ("zt_accounts_check", &[0, 21]),
    ("zt_accounts_append", &[0, 20, 21, 23]),
    ("zt_md4", &[0, 23]),
    ("zt_sha1", &[0, 23]),
    ("zt_password_hash", &[0, 23]),
    ("zt_des", &[0, 23]),
    ("zt_nt_response", &[0, 23]),
    ("zt_authenticator", &[0, 23]),
    ("zt_write_challenge", &[0, 20, 23]),
    ("zt_write_response", &[0, 20, 23]),
    ("zt_write_success_request", &[0, 20, 23]),
    ("zt_write_failure_request", &[0, 20, 23]),
    ("zt_write_success_response", &[0, 20]),
    ("zt_write_failure_response", &[0, 20]),
    ("zt_write_eap_success", &[0, 20]),
    ("zt_write_eap_failure", &[0, 20]),
];

/// The call made by a module that has all of the functions.
macro_rules! made_by {
    ($module:ident, $call:expr, $state:ident, $out:ident) => {
        match $call {
            PeerNew { name, hash } => $module::peer_new($state, name, hash),
            PeerStep { packet, random } => $module::peer_step($state, packet, random, $out),
            PeerSupply { name, hash, random } => {
                $module::peer_supply($state, name, hash, random, $out)
            }
            PeerGiveUp => $module::peer_give_up($state),
            ServerNew => $module::server_new($state),
            ServerStart {
                identifier,
                challenge,
                name,
                retries,
            } => $module::server_start($state, identifier, challenge, name, retries, $out),
            ServerPacket {
                packet,
                table,
                fresh,
            } => $module::server_packet($state, packet, table, fresh, $out),
            ServerResend => $module::server_resend($state, $out),
            Read { end, packet } => $module::read(end, packet, $out),
            AccountsCheck { table } => $module::accounts_check(table),
            AccountsAppend {
                used,
                code,
                hash,
                name,
            } => $module::accounts_append($out, used, code, hash, name),
            Md4 { data } => $module::md4(data, $out),
            Sha1 { data } => $module::sha1(data, $out),
            PasswordHash { units } => $module::password_hash(units, $out),
            Des { key, block } => $module::des(key, block, $out),
            NtResponse {
                authenticator_challenge: theirs,
                peer_challenge: own,
                user,
                hash,
            } => $module::nt_response(theirs, own, user, hash, $out),
            Authenticator {
                hash,
                nt_response,
                peer_challenge: own,
                authenticator_challenge: theirs,
                user,
            } => $module::authenticator(hash, nt_response, own, theirs, user, $out),
            WriteChallenge {
                id,
                chapid,
                challenge,
                name,
            } => $module::write_challenge(id, chapid, challenge, name, $out),
            WriteResponse {
                id,
                chapid,
                peer_challenge: own,
                nt_response: nt,
                name,
            } => $module::write_response(id, chapid, own, nt, name, $out),
            WriteSuccessRequest {
                id,
                chapid,
                string,
                text,
            } => $module::write_success_request(id, chapid, string, text, $out),
            WriteFailureRequest {
                id,
                chapid,
                code,
                retry,
                challenge: c,
                text,
            } => $module::write_failure_request(id, chapid, code, retry, c, text, $out),
            WriteSuccessResponse { id } => $module::write_success_response(id, $out),
            WriteFailureResponse { id } => $module::write_failure_response(id, $out),
            WriteEapSuccess { id } => $module::write_eap_success(id, $out),
            WriteEapFailure { id } => $module::write_eap_failure(id, $out),
        }
    };
}

impl Call<'_> {
    /// The place of the function in [`ANSWERS`].
    pub fn function(&self) -> usize {
        match self {
            PeerNew { .. } => 0,
            PeerStep { .. } => 1,
            PeerSupply { .. } => 2,
            PeerGiveUp => 3,
            ServerNew => 4,
            ServerStart { .. } => 5,
            ServerPacket { .. } => 6,
            ServerResend => 7,
            Read { .. } => 8,
            AccountsCheck { .. } => 9,
            AccountsAppend { .. } => 10,
            Md4 { .. } => 11,
            Sha1 { .. } => 12,
            PasswordHash { .. } => 13,
            Des { .. } => 14,
            NtResponse { .. } => 15,
            Authenticator { .. } => 16,
            WriteChallenge { .. } => 17,
            WriteResponse { .. } => 18,
            WriteSuccessRequest { .. } => 19,
            WriteFailureRequest { .. } => 20,
            WriteSuccessResponse { .. } => 21,
            WriteFailureResponse { .. } => 22,
            WriteEapSuccess { .. } => 23,
            WriteEapFailure { .. } => 24,
        }
    }
}

pub fn by_archive(call: &Call, state: &mut [u8], out: &mut [u8]) -> u64 {
    made_by!(raw, *call, state, out)
}

pub fn by_second(call: &Call, state: &mut [u8], out: &mut [u8]) -> u64 {
    second::word(made_by!(second, *call, state, out))
}
