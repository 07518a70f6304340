/*
 * EAP-MSCHAPv2, both ends: the peer (the one that logs in) and the server.
 *
 * Each function is total, and proved to answer and write what its contract says for every input;
 * this page says the same in words. The functions keep nothing between calls, allocate nothing and
 * block on nothing. A conversation's state is a buffer of the caller's, which may be stored and
 * copied at will. Timers, randomness and the network are the caller's.
 *
 * A peer's whole login, where receive, draw and transmit are the caller's. receive waits for a
 * packet and gives its length, or 0 once the time for this login is up, whatever still comes.
 *
 * example
 *     int log_in(const uint8_t *name, size_t name_len, const uint8_t *hash)
 *     {
 *         uint8_t peer[ZT_PEER_OCTETS], packet[ZT_MAX_PACKET], random[16], reply[ZT_PEER_ROOM];
 *         size_t len;
 *         zt_peer_new(peer, sizeof peer, name, name_len, hash, 16);
 *         while (ZT_PEER_STAGE(peer) < ZT_PEER_SUCCESS && (len = receive(packet, sizeof packet)) > 0) {
 *             draw(random, sizeof random);
 *             uint64_t answer = zt_peer_step(peer, sizeof peer, packet, len, random, 16, reply, sizeof reply);
 *             if (ZT_NUMBER(answer) == ZT_WRITTEN) transmit(reply, ZT_N(answer));
 *             if (ZT_NUMBER(answer) == ZT_NEEDS_CREDENTIALS) zt_peer_give_up(peer, sizeof peer);
 *         }
 *         return ZT_PEER_STAGE(peer);
 *     }
 * end of example
 *
 * It gives the stage in which the login ended. ZT_PEER_SUCCESS is logged in, ZT_PEER_FAILED is not.
 * Any other says that time ran out, and how far it came:
 *   ZT_PEER_BEGIN                    no Challenge came: nobody asked
 *   ZT_PEER_CHALLENGE_RESPONSE_SENT  no verdict came: start over
 *   ZT_PEER_SUCCESS_RESPONSE_SENT    the server has shown that it knows the password; EAP Success, or
 *                                    the reply that brings it, was lost: not logged in, start over
 *   ZT_PEER_FAILURE_RESPONSE_SENT    refused; EAP Failure, or the reply that brings it, was lost
 *   ZT_PEER_WAITING                  does not occur in the example, which gives up at once
 * To start over is zt_peer_new, and a new conversation of the server's.
 *
 * A Success Request or a Failure Request brings a text of the server's, which may say why a login
 * failed. After zt_peer_step this shows it, where show is the caller's:
 *
 * example of a text
 *     if (ZT_TEXT_LEN(answer) > 0)
 *         show(packet + ZT_TEXT_START(answer), ZT_TEXT_LEN(answer));
 * end of example
 *
 * A server resends (zt_server_resend) on a timer while its stage's name ends in SENT, and after some
 * resends drops the state. EAP Success and EAP Failure are not answered, and not sent again (RFC
 * 3748, 4.2): in ZT_SERVER_SUCCESS and ZT_SERVER_FAILED there is nothing to resend, and a peer that
 * did not get the last packet starts over.
 *
 * Every buffer comes as a pointer and its length in octets. A buffer of length 0 may have a null
 * pointer. A buffer that a call writes (one that is not const) must not overlap another buffer of
 * the same call: no function can see that it does, so it is the caller's fault.
 */
#ifndef ZIRGUMTAK_H
#define ZIRGUMTAK_H

#include <stddef.h>
#include <stdint.h>

#ifdef __cplusplus
extern "C" {
#endif

/*
 * Version: major * 10000 + minor * 100 + patch. zt_version gives that of the archive that is
 * linked, and nothing else: it is no answer's word.
 */
#define ZT_VERSION 400
#define ZT_VERSION_TEXT "0.4.0"
uint64_t zt_version(void);

/*
 * Answers
 *
 * Each function but zt_version answers one word: a number in bits 0 to 7, n in bits 8 to 31, the
 * start of a text in bits 32 to 47 and its length in bits 48 to 63.
 *
 * n is the length of the packet that was written to the start of the reply buffer, or of a writer's
 * out, the octets after it being left as they were; n is 0 where no packet was written. (One
 * exception: zt_accounts_append gives a table's length.)
 *
 * The text is what follows "M=" in a Success Request or a Failure Request, up to Length.
 * zt_peer_step and zt_read tell where it lies in the packet, the start counting from the packet's
 * first octet. Where a Success message ends with its digits, the text is empty and starts at Length.
 * Start and length are 0 for every other packet, for every other function and at every refusal.
 *
 * A number from 10 up is a refusal: n is 0, and no octet of any buffer has changed, the state's
 * included. (One exception: zt_peer_new of a name that is too long.) Where several conditions
 * hold, the number is that of the first in the order given at each function.
 */
#define ZT_NUMBER(answer) ((unsigned)((answer) & 0xff))
#define ZT_N(answer) ((size_t)((answer) >> 8 & 0xffffff))
#define ZT_TEXT_START(answer) ((size_t)((answer) >> 32 & 0xffff))
#define ZT_TEXT_LEN(answer) ((size_t)((answer) >> 48 & 0xffff))

#define ZT_WRITTEN 0           /* done; n octets of the reply buffer are a packet to send */
#define ZT_NEEDS_CREDENTIALS 1 /* the peer waits for zt_peer_supply or zt_peer_give_up */
#define ZT_AUTHENTICATED 2     /* the end; a server has written EAP Success */
#define ZT_ENDED 3             /* the end, not authenticated; a server has written EAP Failure */
#define ZT_SHORT 10            /* a packet of fewer than 4 octets */
#define ZT_BAD_LENGTH 11       /* Length under 4 or over the octets lent */
#define ZT_TOO_LONG 12         /* Length over ZT_MAX_PACKET */
#define ZT_BAD_CODE 13         /* Code not for this end: a peer takes 1, 3, 4, a server 2 */
#define ZT_BAD_TYPE 14         /* Code 1 or 2 and no Type octet, or a Type other than 26 */
#define ZT_BAD_OPCODE 15       /* no OpCode, or not one for that Code */
#define ZT_BAD_MS_LENGTH 16    /* Length under 9, or MS-Length other than Length - 5 */
#define ZT_BAD_FORM 17         /* the rest of the packet breaks its form */
#define ZT_WRONG_IDENTIFIER 18 /* Identifier or MS-CHAPv2-ID is not the one due */
#define ZT_NOT_TAKEN 19        /* this stage does not take this packet or call */
#define ZT_NO_ROOM 20          /* what is to be written is longer than its buffer */
#define ZT_BAD_TABLE 21        /* the account table is malformed */
#define ZT_SAME_CHALLENGE 22   /* a Failure Request is due, and the fresh challenge is the old one */
#define ZT_BAD_ARGUMENT 23     /* an argument outside its size */

/*
 * Sizes, in octets
 *
 * A buffer of a fixed size (a state, reading, hash, challenge, random octets, NT-Response,
 * authenticator string, key, block, digest) that comes with another length is refused with
 * ZT_BAD_ARGUMENT before all else.
 */
#define ZT_PEER_OCTETS 1667
#define ZT_SERVER_OCTETS 304
#define ZT_READING_OCTETS 25

#define ZT_HASH_OCTETS 16          /* password hash: MD4 of the UTF-16 password */
#define ZT_CHALLENGE_OCTETS 16     /* challenges, and the random octets of a peer's step */
#define ZT_NT_RESPONSE_OCTETS 24
#define ZT_AUTHENTICATOR_OCTETS 20
#define ZT_MD4_OCTETS 16
#define ZT_SHA1_OCTETS 20
#define ZT_DES_OCTETS 8            /* a DES key with its parity bits, and a block */

#define ZT_MAX_PACKET 1020         /* the largest Length that is read or written */
#define ZT_MAX_NAME 256            /* a peer's name: 0 to 256; a server's own: 1 to 256 */
#define ZT_MAX_PASSWORD 512        /* 256 UTF-16 units */
#define ZT_MAX_TABLE 65536         /* an account table */
#define ZT_MAX_INPUT 65536         /* what zt_md4 and zt_sha1 take */
#define ZT_MAX_RETRIES 10

#define ZT_PEER_ROOM 315           /* a reply buffer of this size is always enough for a peer */
#define ZT_SERVER_ROOM 282         /* and of this size for a server */

/*
 * The peer's state
 *
 * Lengths are little-endian. Fields not yet set are zero, and so is what an array has after its
 * length. Any octets are some state: a stage that is not below is ZT_PEER_FAILED, and a length
 * over its array's size counts as that size. Nothing tells a state that was tampered with, and a
 * stored state holds the password hash: store it where secrets are kept.
 *
 *    offset  octets  field
 *         0       1  stage
 *         1       1  MS-CHAPv2-ID of the last Response
 *         2       2  length of the name
 *         4       2  length of the request
 *         6       2  length of the reply
 *         8      16  password hash
 *        24      16  authenticator challenge
 *        40      16  peer challenge
 *        56     256  name
 *       312    1020  last answered request (ZT_PEER_WAITING: the Failure Request to be answered)
 *      1332     315  last reply, to that request (ZT_PEER_WAITING: to the one before it)
 *      1647      20  authenticator string that is to answer the last Response
 *
 * The string is computed when a Response is made, and a Success Request is compared with what stands
 * here. In a state that zt_peer_new made and the calls left that is the right string; in any other
 * state these octets count as the right one, zeros too.
 */
#define ZT_PEER_BEGIN 0
#define ZT_PEER_CHALLENGE_RESPONSE_SENT 1
#define ZT_PEER_SUCCESS_RESPONSE_SENT 2
#define ZT_PEER_FAILURE_RESPONSE_SENT 3
#define ZT_PEER_WAITING 4
#define ZT_PEER_SUCCESS 5
#define ZT_PEER_FAILED 6

/* The stage of a peer's state: ZT_PEER_FAILED for an octet that is no stage, as the calls take it. */
static inline int ZT_PEER_STAGE(const uint8_t *state)
{
    return state[0] < ZT_PEER_FAILED ? state[0] : ZT_PEER_FAILED;
}

/*
 * The server's state, by the same rules; a stage that is not below is ZT_SERVER_FAILED
 *
 *    offset  octets  field
 *         0       1  stage
 *         1       1  Identifier of the outstanding request
 *         2       1  MS-CHAPv2-ID of the outstanding request
 *         3       1  retries left
 *         4       2  length of the request
 *         6      16  outstanding challenge
 *        22     282  outstanding request
 */
#define ZT_SERVER_BEGIN 0
#define ZT_SERVER_CHALLENGE_SENT 1
#define ZT_SERVER_SUCCESS_REQUEST_SENT 2
#define ZT_SERVER_FAILURE_REQUEST_SENT 3
#define ZT_SERVER_SUCCESS 4
#define ZT_SERVER_FAILED 5

/* The stage of a server's state: ZT_SERVER_FAILED for an octet that is no stage. */
static inline int ZT_SERVER_STAGE(const uint8_t *state)
{
    return state[0] < ZT_SERVER_FAILED ? state[0] : ZT_SERVER_FAILED;
}

/*
 * A reading: what zt_read tells of a packet
 *
 * Numbers are little-endian, and a start counts from the packet's first octet. What a packet does
 * not have is 0, start and length alike.
 *
 *    offset  octets  field
 *         0       1  kind
 *         1       1  Identifier
 *         2       1  MS-CHAPv2-ID
 *         3       2  Length
 *         5       8  code: the number after E=
 *        13       2  start of the challenge
 *        15       2  length of the challenge
 *        17       2  start of the response
 *        19       2  length of the response
 *        21       2  start of the tail
 *        23       2  length of the tail
 *
 *    kind             MS-CHAPv2-ID  code  challenge           response            tail
 *    Challenge        yes           -     challenge           -                   name
 *    Response         yes           -     peer challenge      NT-Response         name
 *    Success Request  yes           -     -                   40 digits after S=  text
 *    Failure Request  yes           yes   32 digits after C=  -                   text
 *    all others       -             -     -                   -                   -
 *
 * The text lies where the answer's word says, too: empty and at Length where a Success message ends
 * with its digits. The digits after C= are of either case.
 */
#define ZT_KIND_CHALLENGE 0
#define ZT_KIND_RESPONSE 1
#define ZT_KIND_SUCCESS_REQUEST 2
#define ZT_KIND_FAILURE_REQUEST 3 /* a Failure Request with R=0 */
#define ZT_KIND_RETRY_REQUEST 4   /* a Failure Request with R=1 */
#define ZT_KIND_SUCCESS_RESPONSE 5
#define ZT_KIND_FAILURE_RESPONSE 6
#define ZT_KIND_EAP_SUCCESS 7
#define ZT_KIND_EAP_FAILURE 8

/* The number of two octets at an offset: the functions below know the offsets. */
static inline size_t ZT_READING_AT(const uint8_t *reading, size_t offset)
{
    return (size_t)(reading[offset] | reading[offset + 1] << 8);
}

/* The fields of a reading. */
static inline int ZT_READING_KIND(const uint8_t *reading) { return reading[0]; }
static inline uint8_t ZT_READING_IDENTIFIER(const uint8_t *reading) { return reading[1]; }
static inline uint8_t ZT_READING_CHAP_ID(const uint8_t *reading) { return reading[2]; }
static inline size_t ZT_READING_LENGTH(const uint8_t *reading) { return ZT_READING_AT(reading, 3); }
static inline size_t ZT_READING_CHALLENGE_START(const uint8_t *reading) { return ZT_READING_AT(reading, 13); }
static inline size_t ZT_READING_CHALLENGE_LEN(const uint8_t *reading) { return ZT_READING_AT(reading, 15); }
static inline size_t ZT_READING_RESPONSE_START(const uint8_t *reading) { return ZT_READING_AT(reading, 17); }
static inline size_t ZT_READING_RESPONSE_LEN(const uint8_t *reading) { return ZT_READING_AT(reading, 19); }
static inline size_t ZT_READING_TAIL_START(const uint8_t *reading) { return ZT_READING_AT(reading, 21); }
static inline size_t ZT_READING_TAIL_LEN(const uint8_t *reading) { return ZT_READING_AT(reading, 23); }
static inline uint64_t ZT_READING_CODE(const uint8_t *reading)
{
    uint64_t code = 0;
    int i;
    for (i = 7; i >= 0; i--)
        code = code << 8 | reading[5 + i];
    return code;
}

/*
 * The peer
 */

/* Makes a peer of that name and password hash, in ZT_PEER_BEGIN: ZT_WRITTEN, n = 0.
 * ZT_BAD_ARGUMENT for a name over ZT_MAX_NAME; the state is then a failed peer, all else zero. */
uint64_t zt_peer_new(uint8_t *state, size_t state_len,
                     const uint8_t *name, size_t name_len,
                     const uint8_t *hash, size_t hash_len);

/* Takes a packet from the server. The 16 random octets, new ones for each call, become the peer
 * challenge if a Response is made, and are not used otherwise. A request that comes again brings
 * the same reply again. A Success message may end with its 40 digits, as FreeRADIUS writes it, or
 * go on with " M=" and any text or none, as zt_server_packet writes it; anything else is
 * ZT_BAD_FORM.
 *
 * What to show the user is the text of a Success Request or a Failure Request. ZT_TEXT_START and
 * ZT_TEXT_LEN of the answer say where in the packet it lies, whatever the number below 10, and again
 * for a request that comes again. It is octets of the server's choosing, also of a server that has
 * not shown that it knows the password: not ended by a zero, and possibly not printable, so escape
 * them. Where a Success message ends with its digits, the text is empty and starts at Length.
 *
 *   ZT_WRITTEN            the reply is to be sent
 *   ZT_NEEDS_CREDENTIALS  the server took name or password for wrong, and allows another try
 *   ZT_AUTHENTICATED      the server has shown that it knows the password, and said Success
 *   ZT_ENDED              it has not shown that, or said Failure
 *   refusals, in this order: 10 to 17, 19, 18, 20; of a request that comes again: 20 alone */
uint64_t zt_peer_step(uint8_t *state, size_t state_len,
                      const uint8_t *packet, size_t packet_len,
                      const uint8_t *random, size_t random_len,
                      uint8_t *reply, size_t reply_len);

/* Answers the kept Failure Request with this name and hash, in ZT_PEER_WAITING: ZT_WRITTEN, and
 * the Response is to be sent. Refusals: 19, 23 (name), 20. */
uint64_t zt_peer_supply(uint8_t *state, size_t state_len,
                        const uint8_t *name, size_t name_len,
                        const uint8_t *hash, size_t hash_len,
                        const uint8_t *random, size_t random_len,
                        uint8_t *reply, size_t reply_len);

/* Ends the conversation in ZT_PEER_WAITING: ZT_ENDED, and nothing to send. Refusal: 19. */
uint64_t zt_peer_give_up(uint8_t *state, size_t state_len);

/*
 * The server
 */

/* Makes a server in ZT_SERVER_BEGIN: ZT_WRITTEN, n = 0. */
uint64_t zt_server_new(uint8_t *state, size_t state_len);

/* Writes the Challenge, under this Identifier and with the server's own name: ZT_WRITTEN. The
 * challenge is to be random. Refusals: 19 (not in ZT_SERVER_BEGIN), 23 (a name of 0 octets or over
 * ZT_MAX_NAME, retries over ZT_MAX_RETRIES), 20. */
uint64_t zt_server_start(uint8_t *state, size_t state_len,
                         uint8_t identifier,
                         const uint8_t *challenge, size_t challenge_len,
                         const uint8_t *name, size_t name_len,
                         uint64_t retries,
                         uint8_t *reply, size_t reply_len);

/* Takes a packet from the peer. A Response is judged by the account table; the fresh challenge,
 * 16 random octets that are new for each call, goes into a Failure Request and is not used
 * otherwise. A table is looked at only for a Response that is judged, so none need be lent for
 * another packet.
 *   ZT_WRITTEN        the next request is to be sent
 *   ZT_AUTHENTICATED  EAP Success is to be sent: n = 4
 *   ZT_ENDED          EAP Failure is to be sent: n = 4
 *   refusals, in this order: 10 to 17, 19, 18, 21, 22, 20 */
uint64_t zt_server_packet(uint8_t *state, size_t state_len,
                          const uint8_t *packet, size_t packet_len,
                          const uint8_t *table, size_t table_len,
                          const uint8_t *fresh, size_t fresh_len,
                          uint8_t *reply, size_t reply_len);

/* Writes the outstanding request again, for a peer that does not answer: ZT_WRITTEN. The state is
 * only read. Refusals: 19, 20. */
uint64_t zt_server_resend(const uint8_t *state, size_t state_len,
                          uint8_t *reply, size_t reply_len);

/*
 * Packets
 *
 * Without a state. The ends read and write by themselves: these are for a program that looks at
 * packets, or makes its own. zt_read answers 0, with n = 0, or a refusal.
 *
 * The writers write one packet each, to the start of out: ZT_WRITTEN, and n is its Length. Refusals,
 * in this order: 23 for what has no form or needs a Length over ZT_MAX_PACKET, which is said at each
 * function; 20 where out is shorter than Length. A buffer of ZT_MAX_PACKET octets is always enough.
 */

/* Reads a packet as an end does, 0 being the peer and 1 the server, and writes every octet of the
 * reading. Whether the end would take the packet depends on its state, and is not told. Refusals: 10
 * to 17; for another end 10 to 12, and then 23. */
uint64_t zt_read(uint8_t end,
                 const uint8_t *packet, size_t packet_len,
                 uint8_t *reading, size_t reading_len);

/* Challenge. Length is 26 and the name's length; 23 for a name of 0 octets or over 994. */
uint64_t zt_write_challenge(uint8_t identifier,
                            uint8_t chap_id,
                            const uint8_t *challenge, size_t challenge_len,
                            const uint8_t *name, size_t name_len,
                            uint8_t *out, size_t out_len);

/* Response. Length is 59 and the name's length; 23 for a name over ZT_MAX_NAME. */
uint64_t zt_write_response(uint8_t identifier,
                           uint8_t chap_id,
                           const uint8_t *peer_challenge, size_t peer_challenge_len,
                           const uint8_t *nt_response, size_t nt_response_len,
                           const uint8_t *name, size_t name_len,
                           uint8_t *out, size_t out_len);

/* Success Request, with the authenticator string, as zt_authenticator gives it, in hex, upper case,
 * after "S=", and the text after " M=". Length is 54 and the text's length; 23 for a text over 966. */
uint64_t zt_write_success_request(uint8_t identifier,
                                  uint8_t chap_id,
                                  const uint8_t *string, size_t string_len,
                                  const uint8_t *text, size_t text_len,
                                  uint8_t *out, size_t out_len);

/* Failure Request, with the code in decimal after "E=", retry after " R=", the challenge in hex, upper
 * case, after " C=", then " V=3", and the text after " M=". Length is 57, the number of the code's
 * digits and the text's length; 23 for a code over 9,999,999,999, a retry over 1, or a Length over
 * ZT_MAX_PACKET. */
uint64_t zt_write_failure_request(uint8_t identifier,
                                  uint8_t chap_id,
                                  uint64_t code,
                                  uint64_t retry,
                                  const uint8_t *challenge, size_t challenge_len,
                                  const uint8_t *text, size_t text_len,
                                  uint8_t *out, size_t out_len);

/* Success Response and Failure Response: Length is 6. EAP Success and EAP Failure: Length is 4. */
uint64_t zt_write_success_response(uint8_t identifier, uint8_t *out, size_t out_len);
uint64_t zt_write_failure_response(uint8_t identifier, uint8_t *out, size_t out_len);
uint64_t zt_write_eap_success(uint8_t identifier, uint8_t *out, size_t out_len);
uint64_t zt_write_eap_failure(uint8_t identifier, uint8_t *out, size_t out_len);

/*
 * Accounts, digests and the cipher
 *
 * Without a state. Each answers 0, with n = 0 but for zt_accounts_append, or a refusal.
 */

/* Whether an account table is well formed. Refusal: 21.
 *
 * A table is records end to end. Each has its whole length (2 octets, little-endian), its kind
 * (2 octets, little-endian) and a body. Kind 1 is an account: a code (2 octets, little-endian: 0,
 * or 646, 647, 648 or 649, which a peer with the right password is told), the password hash (16),
 * the user's name (0 to 256). Other kinds are skipped. The first account of a name counts. */
uint64_t zt_accounts_check(const uint8_t *table, size_t table_len);

/* Appends an account to a table. The table is the first `used` octets of the buffer, 0 for a new
 * one: ZT_WRITTEN, and n is the table's new length, the octets after it being left as they were. An
 * account whose name an earlier one has is appended all the same, and does not count.
 *   refusals, in this order: 23 (used over table_len), 21 (those octets are no table), 23 (a code
 *   that is not one of the five, a name over ZT_MAX_NAME), 20 (the longer table has no room in the
 *   buffer, or is over ZT_MAX_TABLE) */
uint64_t zt_accounts_append(uint8_t *table, size_t table_len,
                            size_t used,
                            uint64_t code,
                            const uint8_t *hash, size_t hash_len,
                            const uint8_t *name, size_t name_len);

/* Digests of up to ZT_MAX_INPUT octets; 23 for more. */
uint64_t zt_md4(const uint8_t *data, size_t data_len, uint8_t *digest, size_t digest_len);
uint64_t zt_sha1(const uint8_t *data, size_t data_len, uint8_t *digest, size_t digest_len);

/* The password hash of UTF-16 units, each low octet first; 23 for an odd number of octets or over
 * ZT_MAX_PASSWORD. */
uint64_t zt_password_hash(const uint8_t *units, size_t units_len, uint8_t *hash, size_t hash_len);

/* One block enciphered with DES. */
uint64_t zt_des(const uint8_t *key, size_t key_len,
                const uint8_t *block, size_t block_len,
                uint8_t *out, size_t out_len);

/* The NT-Response of RFC 2759, 8.1, for a user (a name without its domain); 23 for a user over
 * ZT_MAX_NAME. */
uint64_t zt_nt_response(const uint8_t *authenticator_challenge, size_t authenticator_challenge_len,
                        const uint8_t *peer_challenge, size_t peer_challenge_len,
                        const uint8_t *user, size_t user_len,
                        const uint8_t *hash, size_t hash_len,
                        uint8_t *out, size_t out_len);

/* The authenticator string of RFC 2759, 8.7, before it is written in hex; 23 for a user over
 * ZT_MAX_NAME. */
uint64_t zt_authenticator(const uint8_t *hash, size_t hash_len,
                          const uint8_t *nt_response, size_t nt_response_len,
                          const uint8_t *peer_challenge, size_t peer_challenge_len,
                          const uint8_t *authenticator_challenge, size_t authenticator_challenge_len,
                          const uint8_t *user, size_t user_len,
                          uint8_t *out, size_t out_len);

#ifdef __cplusplus
}
#endif

#endif
