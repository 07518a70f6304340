/* Logs in over the archive, both ends in memory, with the octets that RFC 2759, 9.2 publishes; reads and writes each kind of
 * packet, beside octets by hand. Says each surprise and ends with status 1. */
#include <stdio.h>
#include <string.h>

#include "zirgumtak.h"

#define EXPECT(fact) expect((fact), #fact, __LINE__)
#define TELLS(answer, number, n, start, len) EXPECT(tells(answer, number, n, start, len))
#define ANSWERS(answer, number, n) TELLS(answer, number, n, 0, 0)

static int surprises;

static void expect(int holds, const char *fact, int line)
{
    if (!holds) {
        printf("login.c:%d: not so: %s\n", line, fact);
        surprises++;
    }
}

/* Whether a word has this number, n, and this place of a text, and no other bits. */
static int tells(uint64_t answer, unsigned number, size_t n, size_t start, size_t len)
{
    return answer == ((uint64_t)len << 48 | (uint64_t)start << 32 | (uint64_t)n << 8 | number)
        && ZT_NUMBER(answer) == number && ZT_N(answer) == n && ZT_TEXT_START(answer) == start && ZT_TEXT_LEN(answer) == len;
}

static const uint8_t SERVER_NAME[] = {'d', 'e', 'p', 'o', 't'};
static const uint8_t NAME[] = {'C', 'A', 'M', 'P', '\\', 'U', 's', 'e', 'r'};
static const uint8_t *const USER = NAME + 5;
#define USER_LEN 4

static const uint8_t PASSWORD[] = {'c', 0, 'l', 0, 'i', 0, 'e', 0, 'n', 0, 't', 0, 'P', 0, 'a', 0, 's', 0, 's', 0};
static const uint8_t HASH[] = {0x44, 0xEB, 0xBA, 0x8D, 0x53, 0x12, 0xB8, 0xD6, 0x11, 0x47, 0x44, 0x11, 0xF5, 0x69, 0x89, 0xAE};
static const uint8_t CHALLENGE[] = {0x5B, 0x5D, 0x7C, 0x7D, 0x7B, 0x3F, 0x2F, 0x3E, 0x3C, 0x2C, 0x60, 0x21, 0x32, 0x26, 0x26, 0x28};
static const uint8_t PEER_CHALLENGE[] = {0x21, 0x40, 0x23, 0x24, 0x25, 0x5E, 0x26, 0x2A, 0x28, 0x29, 0x5F, 0x2B, 0x3A, 0x33, 0x7C, 0x7E};
static const uint8_t NT_RESPONSE[] = {0x82, 0x30, 0x9E, 0xCD, 0x8D, 0x70, 0x8B, 0x5E, 0xA0, 0x8F, 0xAA, 0x39,
                                      0x81, 0xCD, 0x83, 0x54, 0x42, 0x33, 0x11, 0x4A, 0x3D, 0x85, 0xD6, 0xDF};
static const uint8_t STRING[] = {0x40, 0x7A, 0x55, 0x89, 0x11, 0x5F, 0xD0, 0xD6, 0x20, 0x9F,
                                 0x51, 0x0F, 0xE9, 0xC0, 0x45, 0x66, 0x93, 0x2C, 0xDA, 0x56};
static const uint8_t SUCCESS_MESSAGE[] = "S=407A5589115FD0D6209F510FE9C04566932CDA56 M=";
static const uint8_t WRONG_HASH[16] = {1};
static const uint8_t FRESH[16] = {2};

/* One account, without a code. */
static const uint8_t TABLE[] = {26, 0, 1, 0, 0, 0, 0x44, 0xEB, 0xBA, 0x8D, 0x53, 0x12, 0xB8, 0xD6, 0x11,
                                0x47, 0x44, 0x11, 0xF5, 0x69, 0x89, 0xAE, 'U', 's', 'e', 'r'};

static uint8_t peer[ZT_PEER_OCTETS], server[ZT_SERVER_OCTETS];
/* The string that the peer keeps. */
static uint8_t *const KEPT = peer + 1647;
/* What each end wrote last. */
static uint8_t request[ZT_SERVER_ROOM], reply[ZT_PEER_ROOM];

static uint64_t start(unsigned retries)
{
    ANSWERS(zt_server_new(server, sizeof server), ZT_WRITTEN, 0);
    return zt_server_start(server, sizeof server, 255, CHALLENGE, sizeof CHALLENGE, SERVER_NAME, sizeof SERVER_NAME,
                           retries, request, sizeof request);
}

static uint64_t to_peer(size_t n)
{
    return zt_peer_step(peer, sizeof peer, request, n, PEER_CHALLENGE, sizeof PEER_CHALLENGE, reply, sizeof reply);
}

static uint64_t to_server(size_t n)
{
    return zt_server_packet(server, sizeof server, reply, n, TABLE, sizeof TABLE, FRESH, sizeof FRESH,
                            request, sizeof request);
}

static uint64_t new_peer(const uint8_t *hash)
{
    return zt_peer_new(peer, sizeof peer, NAME, sizeof NAME, hash, ZT_HASH_OCTETS);
}

static void right_password(void)
{
    ANSWERS(new_peer(HASH), ZT_WRITTEN, 0);
    ANSWERS(start(0), ZT_WRITTEN, 31);
    ANSWERS(to_peer(31), ZT_WRITTEN, 68);
    EXPECT(memcmp(KEPT, STRING, sizeof STRING) == 0);
    EXPECT(memcmp(reply + 34, NT_RESPONSE, sizeof NT_RESPONSE) == 0);
    EXPECT(memcmp(reply + 59, NAME, sizeof NAME) == 0);
    ANSWERS(to_server(68), ZT_WRITTEN, 54);
    EXPECT(memcmp(request + 9, SUCCESS_MESSAGE, 45) == 0);
    EXPECT(request[1] == 0); /* the Identifier after 255 */
    TELLS(to_peer(54), ZT_WRITTEN, 6, 54, 0);
    ANSWERS(to_server(6), ZT_AUTHENTICATED, 4);
    EXPECT(ZT_SERVER_STAGE(server) == ZT_SERVER_SUCCESS);
    ANSWERS(to_peer(4), ZT_AUTHENTICATED, 0);
    EXPECT(ZT_PEER_STAGE(peer) == ZT_PEER_SUCCESS);
}

/* A Success message that ends with its digits: ` M=` is padding then. With one octet more it has no form. */
static void success_without_a_message(void)
{
    ANSWERS(new_peer(HASH), ZT_WRITTEN, 0);
    ANSWERS(start(0), ZT_WRITTEN, 31);
    ANSWERS(to_peer(31), ZT_WRITTEN, 68);
    ANSWERS(to_server(68), ZT_WRITTEN, 54);
    request[3] = 52;
    request[8] = 47;
    ANSWERS(to_peer(54), ZT_BAD_FORM, 0);
    request[3] = 51;
    request[8] = 46;
    TELLS(to_peer(54), ZT_WRITTEN, 6, 51, 0);
    TELLS(to_peer(51), ZT_WRITTEN, 6, 51, 0);
    ANSWERS(to_server(6), ZT_AUTHENTICATED, 4);
    ANSWERS(to_peer(4), ZT_AUTHENTICATED, 0);
    EXPECT(ZT_PEER_STAGE(peer) == ZT_PEER_SUCCESS);
}

/* In a state handed in the kept octets are the right string, zeros too. */
static void other_string_kept(void)
{
    ANSWERS(new_peer(HASH), ZT_WRITTEN, 0);
    ANSWERS(start(0), ZT_WRITTEN, 31);
    ANSWERS(to_peer(31), ZT_WRITTEN, 68);
    ANSWERS(to_server(68), ZT_WRITTEN, 54);
    memset(KEPT, 0, sizeof STRING);
    memset(request + 11, '0', 2 * sizeof STRING);
    TELLS(to_peer(54), ZT_WRITTEN, 6, 54, 0);
    ANSWERS(new_peer(HASH), ZT_WRITTEN, 0);
    ANSWERS(start(0), ZT_WRITTEN, 31);
    ANSWERS(to_peer(31), ZT_WRITTEN, 68);
    ANSWERS(to_server(68), ZT_WRITTEN, 54);
    KEPT[19] ^= 1;
    TELLS(to_peer(54), ZT_ENDED, 0, 54, 0);
    EXPECT(ZT_PEER_STAGE(peer) == ZT_PEER_FAILED);
}

/* A wrong password, and then the right one: what was lost comes again. */
static void second_try(void)
{
    const uint8_t *outstanding = server;
    ANSWERS(new_peer(WRONG_HASH), ZT_WRITTEN, 0);
    ANSWERS(start(1), ZT_WRITTEN, 31);
    ANSWERS(to_peer(31), ZT_WRITTEN, 68);
    memset(reply, 0, sizeof reply);
    ANSWERS(zt_server_resend(outstanding, sizeof server, request, sizeof request), ZT_WRITTEN, 31);
    ANSWERS(to_peer(31), ZT_WRITTEN, 68);
    ANSWERS(to_server(68), ZT_WRITTEN, 60);
    TELLS(to_peer(60), ZT_NEEDS_CREDENTIALS, 0, 60, 0);
    ANSWERS(zt_peer_supply(peer, sizeof peer, NAME, sizeof NAME, HASH, sizeof HASH, PEER_CHALLENGE,
                           sizeof PEER_CHALLENGE, reply, sizeof reply), ZT_WRITTEN, 68);
    ANSWERS(to_server(68), ZT_WRITTEN, 54);
    TELLS(to_peer(54), ZT_WRITTEN, 6, 54, 0);
    ANSWERS(to_server(6), ZT_AUTHENTICATED, 4);
    ANSWERS(to_peer(4), ZT_AUTHENTICATED, 0);
}

static void wrong_password(void)
{
    ANSWERS(new_peer(WRONG_HASH), ZT_WRITTEN, 0);
    ANSWERS(start(0), ZT_WRITTEN, 31);
    ANSWERS(to_peer(31), ZT_WRITTEN, 68);
    ANSWERS(to_server(68), ZT_WRITTEN, 60);
    TELLS(to_peer(60), ZT_WRITTEN, 6, 60, 0);
    ANSWERS(to_server(6), ZT_ENDED, 4);
    EXPECT(ZT_SERVER_STAGE(server) == ZT_SERVER_FAILED);
    ANSWERS(to_peer(4), ZT_ENDED, 0);
    EXPECT(ZT_PEER_STAGE(peer) == ZT_PEER_FAILED);
    ANSWERS(zt_peer_give_up(peer, sizeof peer), ZT_NOT_TAKEN, 0);
}

/* A refusal writes nothing; a buffer of another size than is due is refused. */
static void refusals(void)
{
    uint8_t before[ZT_PEER_OCTETS];
    static const uint8_t long_name[ZT_MAX_NAME + 1];
    ANSWERS(new_peer(HASH), ZT_WRITTEN, 0);
    memcpy(before, peer, sizeof peer);
    memset(reply, 0x5A, sizeof reply);
    ANSWERS(zt_peer_step(peer, sizeof peer, NULL, 0, FRESH, 16, reply, sizeof reply), ZT_SHORT, 0);
    ANSWERS(zt_peer_step(peer, sizeof peer, NULL, 0, FRESH, 15, reply, sizeof reply), ZT_BAD_ARGUMENT, 0);
    ANSWERS(zt_peer_step(peer, sizeof peer - 1, NULL, 0, FRESH, 16, reply, sizeof reply), ZT_BAD_ARGUMENT, 0);
    ANSWERS(start(0), ZT_WRITTEN, 31);
    ANSWERS(zt_peer_step(peer, sizeof peer, request, 31, FRESH, 16, reply, 67), ZT_NO_ROOM, 0);
    ANSWERS(zt_server_packet(server, sizeof server, NULL, 0, NULL, 0, FRESH, 17, NULL, 0), ZT_BAD_ARGUMENT, 0);
    EXPECT(memcmp(before, peer, sizeof peer) == 0);
    EXPECT(reply[0] == 0x5A && memcmp(reply, reply + 1, sizeof reply - 1) == 0);
    ANSWERS(zt_peer_new(peer, sizeof peer, long_name, sizeof long_name, HASH, 16), ZT_BAD_ARGUMENT, 0);
    EXPECT(ZT_PEER_STAGE(peer) == ZT_PEER_FAILED);
}

/* ---- packets by hand */

/* Marked case W8. */
static const uint8_t CHALLENGE_PACKET[] = {1, 1, 0, 0x1D, 0x1A, 1, 1, 0, 0x18, 0x10,
                                           0, 0, 0, 0, 0, 0, 0, 0, 0, 0, 0, 0, 0, 0, 0, 0, 'F', 'R', 'Z'};
/* The Response of RFC 2759's example. */
static const uint8_t RESPONSE_PACKET[] = {2, 7, 0, 63, 26, 2, 9, 0, 58, 49,
                                          0x21, 0x40, 0x23, 0x24, 0x25, 0x5E, 0x26, 0x2A,
                                          0x28, 0x29, 0x5F, 0x2B, 0x3A, 0x33, 0x7C, 0x7E,
                                          0, 0, 0, 0, 0, 0, 0, 0,
                                          0x82, 0x30, 0x9E, 0xCD, 0x8D, 0x70, 0x8B, 0x5E, 0xA0, 0x8F, 0xAA, 0x39,
                                          0x81, 0xCD, 0x83, 0x54, 0x42, 0x33, 0x11, 0x4A, 0x3D, 0x85, 0xD6, 0xDF,
                                          0, 'U', 's', 'e', 'r'};
static const uint8_t SUCCESS_RESPONSE[] = {2, 5, 0, 6, 26, 3}, FAILURE_RESPONSE[] = {2, 5, 0, 6, 26, 4};
static const uint8_t EAP_SUCCESS[] = {3, 5, 0, 4}, EAP_FAILURE[] = {4, 5, 0, 4};
static const uint8_t WELCOME[] = {'W', 'e', 'l', 'c', 'o', 'm', 'e'};
static const uint8_t DISABLED[] = {'A', 'c', 'c', 'o', 'u', 'n', 't', ' ', 'd', 'i', 's', 'a', 'b', 'l', 'e', 'd'};

/* A Success Request (OpCode 3) or Failure Request (4): 9 octets, with MS-CHAPv2-ID 9, and a message. */
static uint8_t with_message[ZT_MAX_PACKET];

static size_t message(uint8_t opcode, uint8_t identifier, const char *content)
{
    size_t n = 9 + strlen(content);
    const uint8_t head[] = {1, identifier, 0, (uint8_t)n, 26, opcode, 9, 0, (uint8_t)(n - 5)};
    memcpy(with_message, head, 9);
    memcpy(with_message + 9, content, n - 9);
    return n;
}

#define S_FIELD "S=407A5589115FD0D6209F510FE9C04566932CDA56"
#define C_FIELD " C=5B5D7C7D7B3F2F3E3C2C602132262628"
#define C_FIELD_IN_LOWER_CASE " C=5b5d7c7d7b3f2f3e3c2c602132262628"

/* ---- the server's text */

static uint8_t shown[ZT_MAX_PACKET];
static size_t shown_len;

static void show(const uint8_t *text, size_t len)
{
    memcpy(shown, text, len);
    shown_len = len;
}

/* The header's example of a text, which tests/c/run cuts out. */
static void show_text(const uint8_t *packet, uint64_t answer)
{
#include "text.h"
}

static uint64_t step_and_show(const uint8_t *packet, size_t packet_len, size_t room)
{
    uint64_t answer = zt_peer_step(peer, sizeof peer, packet, packet_len, PEER_CHALLENGE, 16, reply, room);
    shown_len = 0;
    show_text(packet, answer);
    return answer;
}

static void response_sent(void)
{
    ANSWERS(new_peer(HASH), ZT_WRITTEN, 0);
    ANSWERS(start(0), ZT_WRITTEN, 31);
    ANSWERS(to_peer(31), ZT_WRITTEN, 68);
}

/* The place is told wherever the packet is taken, a repeat too, and not where it is refused. */
static void text_of_a_failure(void)
{
    size_t n;
    response_sent();
    n = message(4, 255, "E=647 R=0" C_FIELD " V=3 M=Account disabled");
    EXPECT(n == 76);
    ANSWERS(step_and_show(with_message, n, 6), ZT_WRONG_IDENTIFIER, 0);
    with_message[1] = 5;
    ANSWERS(step_and_show(with_message, n - 1, 6), ZT_BAD_LENGTH, 0);
    ANSWERS(step_and_show(with_message, n, 5), ZT_NO_ROOM, 0);
    EXPECT(shown_len == 0);
    TELLS(step_and_show(with_message, n, 6), ZT_WRITTEN, 6, 60, 16);
    EXPECT(shown_len == 16 && memcmp(shown, DISABLED, 16) == 0);
    ANSWERS(step_and_show(with_message, n, 5), ZT_NO_ROOM, 0);
    EXPECT(shown_len == 0);
    TELLS(step_and_show(with_message, n + 1, 6), ZT_WRITTEN, 6, 60, 16);
    EXPECT(shown_len == 16 && memcmp(shown, DISABLED, 16) == 0);
    ANSWERS(step_and_show(EAP_FAILURE, 4, 6), ZT_ENDED, 0);
    ANSWERS(step_and_show(with_message, n, 6), ZT_NOT_TAKEN, 0);
    EXPECT(shown_len == 0);
}

/* A text that the peer waits with; supply and give-up tell none. */
static void text_of_a_retry(void)
{
    uint8_t waiting[ZT_PEER_OCTETS];
    size_t n;
    response_sent();
    n = message(4, 5, "E=691 R=1" C_FIELD " V=3 M=Try again");
    TELLS(step_and_show(with_message, n, 0), ZT_NEEDS_CREDENTIALS, 0, 60, 9);
    EXPECT(shown_len == 9 && memcmp(shown, "Try again", 9) == 0);
    ANSWERS(step_and_show(with_message, n, 0), ZT_NOT_TAKEN, 0);
    memcpy(waiting, peer, sizeof peer);
    ANSWERS(zt_peer_supply(waiting, sizeof waiting, NAME, sizeof NAME, HASH, 16, PEER_CHALLENGE, 16, reply, sizeof reply),
            ZT_WRITTEN, 68);
    ANSWERS(zt_peer_give_up(peer, sizeof peer), ZT_ENDED, 0);
}

/* With the right string and with another one. */
static void text_of_a_success(void)
{
    size_t n;
    response_sent();
    n = message(3, 5, S_FIELD " M=Welcome");
    TELLS(step_and_show(with_message, n, 6), ZT_WRITTEN, 6, 54, 7);
    EXPECT(shown_len == 7 && memcmp(shown, WELCOME, 7) == 0);
    response_sent();
    with_message[11] = '5';
    TELLS(step_and_show(with_message, n, 0), ZT_ENDED, 0, 54, 7);
    EXPECT(shown_len == 7 && memcmp(shown, WELCOME, 7) == 0);
}

/* ---- readings */

static uint8_t reading[ZT_READING_OCTETS];

static int unwritten(const uint8_t *octets, size_t len)
{
    size_t i;
    for (i = 0; i < len; i++)
        if (octets[i] != 0x5A)
            return 0;
    return 1;
}

/* What the accessors give of a reading. */
static int has_places(size_t challenge, size_t challenge_len, size_t response, size_t response_len, size_t tail, size_t tail_len)
{
    return ZT_READING_CHALLENGE_START(reading) == challenge && ZT_READING_CHALLENGE_LEN(reading) == challenge_len
        && ZT_READING_RESPONSE_START(reading) == response && ZT_READING_RESPONSE_LEN(reading) == response_len
        && ZT_READING_TAIL_START(reading) == tail && ZT_READING_TAIL_LEN(reading) == tail_len;
}

static int has_head(int kind, unsigned identifier, unsigned chap_id, size_t length, uint64_t code)
{
    return ZT_READING_KIND(reading) == kind && ZT_READING_IDENTIFIER(reading) == identifier
        && ZT_READING_CHAP_ID(reading) == chap_id && ZT_READING_LENGTH(reading) == length
        && ZT_READING_CODE(reading) == code;
}

static uint64_t read_by(uint8_t end, const uint8_t *packet, size_t packet_len)
{
    memset(reading, 0x5A, sizeof reading);
    return zt_read(end, packet, packet_len, reading, sizeof reading);
}

static void readings(void)
{
    static const uint8_t challenge[] = {0, 1, 1, 29, 0, 0, 0, 0, 0, 0, 0, 0, 0, 10, 0, 16, 0, 0, 0, 0, 0, 26, 0, 3, 0};
    static const uint8_t response[] = {1, 7, 9, 63, 0, 0, 0, 0, 0, 0, 0, 0, 0, 10, 0, 16, 0, 34, 0, 24, 0, 59, 0, 4, 0};
    static const uint8_t success[] = {2, 3, 9, 61, 0, 0, 0, 0, 0, 0, 0, 0, 0, 0, 0, 0, 0, 11, 0, 40, 0, 54, 0, 7, 0};
    static const uint8_t without_tail[] = {2, 3, 9, 51, 0, 0, 0, 0, 0, 0, 0, 0, 0, 0, 0, 0, 0, 11, 0, 40, 0, 51, 0, 0, 0};
    static const uint8_t failure[] = {3, 4, 9, 76, 0, 0x87, 2, 0, 0, 0, 0, 0, 0, 21, 0, 32, 0, 0, 0, 0, 0, 60, 0, 16, 0};
    static const uint8_t retry[] = {4, 4, 9, 68, 0, 0, 0, 0, 0, 1, 0, 0, 0, 28, 0, 32, 0, 0, 0, 0, 0, 68, 0, 0, 0};
    static const uint8_t success_response[25] = {5, 5, 0, 6}, failure_response[25] = {6, 5, 0, 6};
    static const uint8_t eap_success[25] = {7, 5, 0, 4}, eap_failure[25] = {8, 5, 0, 4};

    ANSWERS(read_by(0, CHALLENGE_PACKET, sizeof CHALLENGE_PACKET), 0, 0);
    EXPECT(memcmp(reading, challenge, 25) == 0);
    EXPECT(has_head(ZT_KIND_CHALLENGE, 1, 1, 29, 0) && has_places(10, 16, 0, 0, 26, 3));
    ANSWERS(read_by(1, RESPONSE_PACKET, sizeof RESPONSE_PACKET), 0, 0);
    EXPECT(memcmp(reading, response, 25) == 0);
    EXPECT(has_head(ZT_KIND_RESPONSE, 7, 9, 63, 0) && has_places(10, 16, 34, 24, 59, 4));

    EXPECT(message(3, 3, S_FIELD " M=Welcome") == 61);
    TELLS(read_by(0, with_message, 61), 0, 0, 54, 7);
    EXPECT(memcmp(reading, success, 25) == 0);
    EXPECT(has_head(ZT_KIND_SUCCESS_REQUEST, 3, 9, 61, 0) && has_places(0, 0, 11, 40, 54, 7));
    EXPECT(message(3, 3, S_FIELD) == 51);
    TELLS(read_by(0, with_message, 51), 0, 0, 51, 0);
    EXPECT(memcmp(reading, without_tail, 25) == 0);
    /* The octets after Length, " M=Welcome", are padding. */
    TELLS(read_by(0, with_message, 61), 0, 0, 51, 0);
    EXPECT(memcmp(reading, without_tail, 25) == 0);

    EXPECT(message(4, 4, "E=647 R=0" C_FIELD " V=3 M=Account disabled") == 76);
    TELLS(read_by(0, with_message, 76), 0, 0, 60, 16);
    EXPECT(memcmp(reading, failure, 25) == 0);
    EXPECT(has_head(ZT_KIND_FAILURE_REQUEST, 4, 9, 76, 647) && has_places(21, 32, 0, 0, 60, 16));
    /* A code of 33 bits, a version of two digits, no text. */
    EXPECT(message(4, 4, "E=4294967296 R=1" C_FIELD_IN_LOWER_CASE " V=03 M=") == 68);
    TELLS(read_by(0, with_message, 68), 0, 0, 68, 0);
    EXPECT(memcmp(reading, retry, 25) == 0);
    EXPECT(has_head(ZT_KIND_RETRY_REQUEST, 4, 9, 68, 4294967296u) && has_places(28, 32, 0, 0, 68, 0));

    ANSWERS(read_by(1, SUCCESS_RESPONSE, 6), 0, 0);
    EXPECT(memcmp(reading, success_response, 25) == 0 && ZT_READING_KIND(reading) == ZT_KIND_SUCCESS_RESPONSE);
    ANSWERS(read_by(1, FAILURE_RESPONSE, 6), 0, 0);
    EXPECT(memcmp(reading, failure_response, 25) == 0 && ZT_READING_KIND(reading) == ZT_KIND_FAILURE_RESPONSE);
    ANSWERS(read_by(0, EAP_SUCCESS, 4), 0, 0);
    EXPECT(memcmp(reading, eap_success, 25) == 0 && ZT_READING_KIND(reading) == ZT_KIND_EAP_SUCCESS);
    ANSWERS(read_by(0, EAP_FAILURE, 4), 0, 0);
    EXPECT(memcmp(reading, eap_failure, 25) == 0 && ZT_READING_KIND(reading) == ZT_KIND_EAP_FAILURE);
}

/* What is refused writes no octet of the reading, and tells no text. */
static void readings_refused(void)
{
    uint8_t longer[ZT_READING_OCTETS + 1];
    size_t n = message(4, 4, "E=647 R=0" C_FIELD " V=3 M=Account disabled");
    ANSWERS(read_by(1, EAP_SUCCESS, 4), ZT_BAD_CODE, 0);
    EXPECT(unwritten(reading, sizeof reading));
    ANSWERS(read_by(1, with_message, n), ZT_BAD_CODE, 0);
    EXPECT(unwritten(reading, sizeof reading));
    ANSWERS(read_by(2, with_message, n), ZT_BAD_ARGUMENT, 0);
    EXPECT(unwritten(reading, sizeof reading));
    ANSWERS(read_by(2, EAP_SUCCESS, 3), ZT_SHORT, 0);
    ANSWERS(read_by(2, with_message, n - 1), ZT_BAD_LENGTH, 0);
    with_message[17] = '2';
    ANSWERS(read_by(0, with_message, n), ZT_BAD_FORM, 0);
    EXPECT(unwritten(reading, sizeof reading));
    memset(longer, 0x5A, sizeof longer);
    ANSWERS(zt_read(0, NULL, 0, longer, sizeof longer), ZT_BAD_ARGUMENT, 0);
    ANSWERS(zt_read(0, EAP_SUCCESS, 4, longer, sizeof longer), ZT_BAD_ARGUMENT, 0);
    ANSWERS(zt_read(0, EAP_SUCCESS, 4, longer, ZT_READING_OCTETS - 1), ZT_BAD_ARGUMENT, 0);
    ANSWERS(zt_read(0, EAP_SUCCESS, 4, NULL, 0), ZT_BAD_ARGUMENT, 0);
    EXPECT(unwritten(longer, sizeof longer));
}

/* ---- writers */

static uint8_t out[ZT_MAX_PACKET + 1];

/* The call writes these octets and none after them. */
#define WRITES(call, packet, n)                                         \
    do {                                                                \
        memset(out, 0x5A, sizeof out);                                  \
        ANSWERS(call, ZT_WRITTEN, n);                                   \
        EXPECT(memcmp(out, packet, n) == 0);                            \
        EXPECT(unwritten(out + (n), sizeof out - (n)));                 \
    } while (0)

#define REFUSES(call, number)                                           \
    do {                                                                \
        memset(out, 0x5A, sizeof out);                                  \
        ANSWERS(call, number, 0);                                       \
        EXPECT(unwritten(out, sizeof out));                             \
    } while (0)

static const uint8_t ZEROS[ZT_MAX_PACKET];

static void writers_of_the_peer(void)
{
#define RESPONSE(challenge_len, response_len, name_len, room) \
    zt_write_response(7, 9, PEER_CHALLENGE, challenge_len, NT_RESPONSE, response_len, USER, name_len, out, room)
    WRITES(RESPONSE(16, 24, 4, sizeof out), RESPONSE_PACKET, 63);
    WRITES(RESPONSE(16, 24, 4, 63), RESPONSE_PACKET, 63);
    REFUSES(RESPONSE(16, 24, 4, 62), ZT_NO_ROOM);
    REFUSES(RESPONSE(15, 24, 4, 62), ZT_BAD_ARGUMENT);
    REFUSES(RESPONSE(16, 23, 4, 62), ZT_BAD_ARGUMENT);
    REFUSES(zt_write_response(7, 9, PEER_CHALLENGE, 16, NT_RESPONSE, 24, ZEROS, 257, out, 0), ZT_BAD_ARGUMENT);
    REFUSES(zt_write_response(7, 9, PEER_CHALLENGE, 16, NT_RESPONSE, 24, ZEROS, 256, out, 314), ZT_NO_ROOM);
    ANSWERS(zt_write_response(7, 9, PEER_CHALLENGE, 16, NT_RESPONSE, 24, ZEROS, 256, out, 315), ZT_WRITTEN, 315);
    ANSWERS(zt_write_response(7, 9, PEER_CHALLENGE, 16, NT_RESPONSE, 24, NULL, 0, out, 59), ZT_WRITTEN, 59);
#undef RESPONSE
    WRITES(zt_write_success_response(5, out, sizeof out), SUCCESS_RESPONSE, 6);
    REFUSES(zt_write_success_response(5, out, 5), ZT_NO_ROOM);
    WRITES(zt_write_failure_response(5, out, sizeof out), FAILURE_RESPONSE, 6);
    REFUSES(zt_write_failure_response(5, out, 5), ZT_NO_ROOM);
}

static void challenge_written(void)
{
#define WRITE(challenge_len, name, name_len, room) zt_write_challenge(1, 1, ZEROS, challenge_len, name, name_len, out, room)
    static const uint8_t frz[] = {'F', 'R', 'Z'};
    WRITES(WRITE(16, frz, 3, sizeof out), CHALLENGE_PACKET, 29);
    WRITES(WRITE(16, frz, 3, 29), CHALLENGE_PACKET, 29);
    REFUSES(WRITE(16, frz, 3, 28), ZT_NO_ROOM);
    REFUSES(WRITE(17, frz, 3, sizeof out), ZT_BAD_ARGUMENT);
    REFUSES(WRITE(16, NULL, 0, sizeof out), ZT_BAD_ARGUMENT);
    REFUSES(WRITE(16, NULL, 0, 0), ZT_BAD_ARGUMENT);
    REFUSES(WRITE(16, ZEROS, 995, 0), ZT_BAD_ARGUMENT);
    REFUSES(WRITE(16, ZEROS, 994, 1019), ZT_NO_ROOM);
    ANSWERS(WRITE(16, ZEROS, 994, 1020), ZT_WRITTEN, 1020);
#undef WRITE
}

static void success_request_written(void)
{
#define WRITE(string_len, text, text_len, room) zt_write_success_request(3, 9, STRING, string_len, text, text_len, out, room)
    message(3, 3, S_FIELD " M=Welcome");
    WRITES(WRITE(20, WELCOME, 7, sizeof out), with_message, 61);
    WRITES(WRITE(20, WELCOME, 7, 61), with_message, 61);
    REFUSES(WRITE(20, WELCOME, 7, 60), ZT_NO_ROOM);
    REFUSES(WRITE(19, WELCOME, 7, 60), ZT_BAD_ARGUMENT);
    message(3, 3, S_FIELD " M=");
    WRITES(WRITE(20, NULL, 0, 54), with_message, 54);
    REFUSES(WRITE(20, ZEROS, 967, 0), ZT_BAD_ARGUMENT);
    REFUSES(WRITE(20, ZEROS, 966, 1019), ZT_NO_ROOM);
    ANSWERS(WRITE(20, ZEROS, 966, 1020), ZT_WRITTEN, 1020);
    /* The longest text is read where it was written. */
    TELLS(read_by(0, out, 1020), 0, 0, 54, 966);
    EXPECT(has_head(ZT_KIND_SUCCESS_REQUEST, 3, 9, 1020, 0) && has_places(0, 0, 11, 40, 54, 966));
#undef WRITE
}

static void failure_request_written(void)
{
#define WRITE(code, retry, challenge_len, text, text_len, room) \
    zt_write_failure_request(4, 9, code, retry, CHALLENGE, challenge_len, text, text_len, out, room)
    message(4, 4, "E=647 R=0" C_FIELD " V=3 M=Account disabled");
    WRITES(WRITE(647, 0, 16, DISABLED, 16, sizeof out), with_message, 76);
    WRITES(WRITE(647, 0, 16, DISABLED, 16, 76), with_message, 76);
    REFUSES(WRITE(647, 0, 16, DISABLED, 16, 75), ZT_NO_ROOM);
    REFUSES(WRITE(647, 0, 15, DISABLED, 16, 75), ZT_BAD_ARGUMENT);
    REFUSES(WRITE(647, 2, 16, DISABLED, 16, 75), ZT_BAD_ARGUMENT);
    REFUSES(WRITE(647, (uint64_t)1 << 32, 16, DISABLED, 16, 75), ZT_BAD_ARGUMENT);
    REFUSES(WRITE(10000000000u, 0, 16, DISABLED, 16, 75), ZT_BAD_ARGUMENT);
    message(4, 4, "E=9999999999 R=1" C_FIELD " V=3 M=");
    WRITES(WRITE(9999999999u, 1, 16, NULL, 0, 67), with_message, 67);
    message(4, 4, "E=0 R=0" C_FIELD " V=3 M=");
    WRITES(WRITE(0, 0, 16, NULL, 0, 58), with_message, 58);
    REFUSES(WRITE(647, 0, 16, ZEROS, 961, 0), ZT_BAD_ARGUMENT);
    REFUSES(WRITE(647, 0, 16, ZEROS, 960, 1019), ZT_NO_ROOM);
    ANSWERS(WRITE(647, 0, 16, ZEROS, 960, 1020), ZT_WRITTEN, 1020);
    REFUSES(WRITE(9999999999u, 0, 16, ZEROS, 954, 0), ZT_BAD_ARGUMENT);
    ANSWERS(WRITE(9999999999u, 0, 16, ZEROS, 953, 1020), ZT_WRITTEN, 1020);
#undef WRITE
}

static void ends_written(void)
{
    WRITES(zt_write_eap_success(5, out, sizeof out), EAP_SUCCESS, 4);
    REFUSES(zt_write_eap_success(5, out, 3), ZT_NO_ROOM);
    WRITES(zt_write_eap_failure(5, out, sizeof out), EAP_FAILURE, 4);
    REFUSES(zt_write_eap_failure(5, out, 3), ZT_NO_ROOM);
    REFUSES(zt_write_eap_failure(5, NULL, 0), ZT_NO_ROOM);
}

/* ---- the rest */

/* The account of TABLE is appended to no table, and another to that; a refusal changes nothing. */
static void appended_accounts(void)
{
    uint8_t table[2 * sizeof TABLE], before[2 * sizeof TABLE];
    static const uint8_t long_name[ZT_MAX_NAME + 1];
    memset(table, 0x5A, sizeof table);
    ANSWERS(zt_accounts_append(table, sizeof table, 0, 0, HASH, 16, USER, USER_LEN), ZT_WRITTEN, 26);
    EXPECT(memcmp(table, TABLE, 26) == 0 && table[26] == 0x5A);
    ANSWERS(zt_accounts_append(table, sizeof table, 26, 647, HASH, 16, SERVER_NAME, 4), ZT_WRITTEN, 52);
    EXPECT(memcmp(table, TABLE, 26) == 0 && table[30] == (647 & 255) && table[31] == 647 >> 8);
    EXPECT(memcmp(table + 32, HASH, 16) == 0 && memcmp(table + 48, SERVER_NAME, 4) == 0);
    ANSWERS(zt_accounts_check(table, 52), 0, 0);
    memcpy(before, table, sizeof table);
    ANSWERS(zt_accounts_append(table, 51, 52, 0, HASH, 16, USER, USER_LEN), ZT_BAD_ARGUMENT, 0);
    ANSWERS(zt_accounts_append(table, 52, 26, 0, HASH, 15, USER, USER_LEN), ZT_BAD_ARGUMENT, 0);
    ANSWERS(zt_accounts_append(table, 52, 25, 0, HASH, 16, USER, USER_LEN), ZT_BAD_TABLE, 0);
    ANSWERS(zt_accounts_append(table, 52, 26, 645, HASH, 16, USER, USER_LEN), ZT_BAD_ARGUMENT, 0);
    ANSWERS(zt_accounts_append(table, 52, 26, 0, HASH, 16, long_name, sizeof long_name), ZT_BAD_ARGUMENT, 0);
    ANSWERS(zt_accounts_append(table, 51, 26, 0, HASH, 16, USER, USER_LEN), ZT_NO_ROOM, 0);
    EXPECT(memcmp(before, table, sizeof table) == 0);
}

static void version(void)
{
    char text[32];
    sprintf(text, "%d.%d.%d", ZT_VERSION / 10000, ZT_VERSION / 100 % 100, ZT_VERSION % 100);
    EXPECT(strcmp(text, ZT_VERSION_TEXT) == 0);
    EXPECT(zt_version() == ZT_VERSION);
}

static void without_a_state(void)
{
    static const uint8_t abc[] = {'a', 'b', 'c'};
    static const uint8_t sha1_of_abc[] = {0xA9, 0x99, 0x3E, 0x36, 0x47, 0x06, 0x81, 0x6A, 0xBA, 0x3E,
                                          0x25, 0x71, 0x78, 0x50, 0xC2, 0x6C, 0x9C, 0xD0, 0xD8, 0x9D};
    static const uint8_t md4_of_abc[] = {0xA4, 0x48, 0x01, 0x7A, 0xAF, 0x21, 0xD8, 0x52,
                                         0x5F, 0xC1, 0x0A, 0xE8, 0x7A, 0xA6, 0x72, 0x9D};
    static const uint8_t key[] = {0x13, 0x34, 0x57, 0x79, 0x9B, 0xBC, 0xDF, 0xF1};
    static const uint8_t block[] = {0x01, 0x23, 0x45, 0x67, 0x89, 0xAB, 0xCD, 0xEF};
    static const uint8_t enciphered[] = {0x85, 0xE8, 0x13, 0x54, 0x0F, 0x0A, 0xB4, 0x05};
    ANSWERS(zt_md4(abc, sizeof abc, out, ZT_MD4_OCTETS), 0, 0);
    EXPECT(memcmp(out, md4_of_abc, sizeof md4_of_abc) == 0);
    ANSWERS(zt_sha1(abc, sizeof abc, out, ZT_SHA1_OCTETS), 0, 0);
    EXPECT(memcmp(out, sha1_of_abc, sizeof sha1_of_abc) == 0);
    ANSWERS(zt_password_hash(PASSWORD, sizeof PASSWORD, out, ZT_HASH_OCTETS), 0, 0);
    EXPECT(memcmp(out, HASH, sizeof HASH) == 0);
    ANSWERS(zt_des(key, sizeof key, block, sizeof block, out, ZT_DES_OCTETS), 0, 0);
    EXPECT(memcmp(out, enciphered, sizeof enciphered) == 0);
    ANSWERS(zt_nt_response(CHALLENGE, 16, PEER_CHALLENGE, 16, USER, USER_LEN, HASH, 16, out, ZT_NT_RESPONSE_OCTETS), 0, 0);
    EXPECT(memcmp(out, NT_RESPONSE, sizeof NT_RESPONSE) == 0);
    ANSWERS(zt_authenticator(HASH, 16, NT_RESPONSE, sizeof NT_RESPONSE, PEER_CHALLENGE, 16, CHALLENGE, 16,
                             USER, USER_LEN, out, ZT_AUTHENTICATOR_OCTETS), 0, 0);
    EXPECT(memcmp(out, STRING, sizeof STRING) == 0);
    ANSWERS(zt_accounts_check(TABLE, sizeof TABLE), 0, 0);
    ANSWERS(zt_accounts_check(TABLE, sizeof TABLE - 1), ZT_BAD_TABLE, 0);
}

int main(void)
{
    right_password();
    success_without_a_message();
    other_string_kept();
    second_try();
    wrong_password();
    refusals();
    text_of_a_failure();
    text_of_a_retry();
    text_of_a_success();
    readings();
    readings_refused();
    writers_of_the_peer();
    challenge_written();
    success_request_written();
    failure_request_written();
    ends_written();
    without_a_state();
    appended_accounts();
    version();
    if (surprises == 0)
        puts("login.c: logged in, refused, read, wrote and computed as expected");
    return surprises != 0;
}
