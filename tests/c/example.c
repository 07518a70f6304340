/* Runs the example of zirgumtak.h, which tests/c/run cuts out of the header, against a server in memory, over a link
 * that loses packets both ways. The server resends on a timer of its own, and gives up after some resends; the peer's
 * timer is receive's. Says the first surprise and ends with status 1. */
#include <stdio.h>
#include <stdlib.h>
#include <string.h>

#include "zirgumtak.h"

#define TIME_FOR_A_LOGIN 60
#define TIME_TO_RESEND 4
#define MOST_RESENDS 6
#define RUNS 400
#define EXPECT(fact) expect((fact), #fact, __LINE__)

static const uint8_t HASH[16] = {7}, WRONG_HASH[16] = {8}, CHALLENGE[16] = {9}, FRESH[16] = {10};
static const uint8_t NAME[] = {'f', 'r', 'z'};
static const uint8_t TABLE[] = {25, 0, 1, 0, 0, 0, 7, 0, 0, 0, 0, 0, 0, 0, 0, 0, 0, 0, 0, 0, 0, 0, 'f', 'r', 'z'};

static uint8_t server[ZT_SERVER_OCTETS], request[ZT_SERVER_ROOM];
/* The packet that is on its way to the peer: none where this is 0. */
static size_t request_len;
/* Of 100 packets, how many the link loses. */
static unsigned loss;
static unsigned now, resend_at, resends;
/* Whether the peer was told so: then it must not ask for packets again. */
static int time_was_up;
static uint32_t seed = 1;

static void expect(int holds, const char *fact, int line)
{
    if (!holds) {
        printf("example.c:%d: not so, at a loss of %u in 100: %s\n", line, loss, fact);
        exit(1);
    }
}

static int lost(void)
{
    seed = seed * 1664525u + 1013904223u;
    return (seed >> 16) % 100 < loss;
}

/* What the server has written goes to the peer. */
static void send_request(uint64_t answer)
{
    request_len = lost() ? 0 : ZT_N(answer);
    resend_at = now + TIME_TO_RESEND;
}

/* What the server does when its timer runs out: it can resend exactly where its stage's name ends in SENT. */
static void resend(void)
{
    int stage = ZT_SERVER_STAGE(server);
    int sent = ZT_SERVER_CHALLENGE_SENT <= stage && stage <= ZT_SERVER_FAILURE_REQUEST_SENT;
    uint64_t answer = zt_server_resend(server, sizeof server, request, sizeof request);
    EXPECT(ZT_NUMBER(answer) == (sent ? ZT_WRITTEN : ZT_NOT_TAKEN));
    resends++;
    send_request(answer);
}

static size_t receive(uint8_t *packet, size_t room)
{
    EXPECT(!time_was_up);
    while (now < TIME_FOR_A_LOGIN) {
        now++;
        if (request_len == 0 && now >= resend_at && resends < MOST_RESENDS)
            resend();
        if (request_len > 0) {
            size_t n = request_len < room ? request_len : room;
            memcpy(packet, request, n);
            request_len = 0;
            return n;
        }
    }
    time_was_up = 1;
    return 0;
}

static void draw(uint8_t *random, size_t len)
{
    memset(random, 11, len);
}

static void transmit(const uint8_t *packet, size_t len)
{
    uint64_t answer;
    if (lost())
        return;
    answer = zt_server_packet(server, sizeof server, packet, len, TABLE, sizeof TABLE, FRESH, 16,
                              request, sizeof request);
    if (ZT_N(answer) > 0)
        send_request(answer);
}

#include "example.h"

static int run(const uint8_t *hash, unsigned retries)
{
    int stage;
    now = resends = 0;
    time_was_up = 0;
    zt_server_new(server, sizeof server);
    send_request(zt_server_start(server, sizeof server, 1, CHALLENGE, 16, NAME, sizeof NAME, retries,
                                 request, sizeof request));
    stage = log_in(NAME, sizeof NAME, hash);
    EXPECT(time_was_up == (stage < ZT_PEER_SUCCESS));
    return stage;
}

/* How often each stage was the end, for one hash. */
static unsigned ends[2][ZT_PEER_FAILED + 1], success_was_lost, failure_was_lost;

static void right_hash(void)
{
    int stage = run(HASH, 0);
    ends[0][stage]++;
    success_was_lost += stage == ZT_PEER_SUCCESS_RESPONSE_SENT && ZT_SERVER_STAGE(server) == ZT_SERVER_SUCCESS;
    EXPECT(stage != ZT_PEER_SUCCESS || ZT_SERVER_STAGE(server) == ZT_SERVER_SUCCESS);
    EXPECT(stage == ZT_PEER_SUCCESS || loss > 0);
    EXPECT(stage == ZT_PEER_BEGIN || loss < 100);
}

static void wrong_hash(unsigned retries)
{
    int stage = run(WRONG_HASH, retries);
    ends[1][stage]++;
    failure_was_lost += stage == ZT_PEER_FAILURE_RESPONSE_SENT && ZT_SERVER_STAGE(server) == ZT_SERVER_FAILED;
    EXPECT(ZT_SERVER_STAGE(server) != ZT_SERVER_SUCCESS && ZT_SERVER_STAGE(server) != ZT_SERVER_SUCCESS_REQUEST_SENT);
    EXPECT(stage == ZT_PEER_FAILED || loss > 0);
    EXPECT(stage == ZT_PEER_BEGIN || loss < 100);
}

/* Which ends occur with the right hash, and which with a wrong one. */
static void all_ends(void)
{
    EXPECT(ends[0][ZT_PEER_BEGIN] && ends[0][ZT_PEER_CHALLENGE_RESPONSE_SENT] && ends[0][ZT_PEER_SUCCESS]);
    EXPECT(success_was_lost && success_was_lost < ends[0][ZT_PEER_SUCCESS_RESPONSE_SENT]);
    EXPECT(!ends[0][ZT_PEER_FAILURE_RESPONSE_SENT] && !ends[0][ZT_PEER_WAITING] && !ends[0][ZT_PEER_FAILED]);
    EXPECT(ends[1][ZT_PEER_BEGIN] && ends[1][ZT_PEER_CHALLENGE_RESPONSE_SENT] && ends[1][ZT_PEER_FAILED]);
    EXPECT(failure_was_lost && failure_was_lost < ends[1][ZT_PEER_FAILURE_RESPONSE_SENT]);
    EXPECT(!ends[1][ZT_PEER_SUCCESS_RESPONSE_SENT] && !ends[1][ZT_PEER_WAITING] && !ends[1][ZT_PEER_SUCCESS]);
}

int main(void)
{
    unsigned i;
    for (loss = 0; loss <= 100; loss += 10)
        for (i = 0; i < RUNS; i++) {
            right_hash();
            wrong_hash(0);
            wrong_hash(2);
        }
    all_ends();
    printf("example.c: the header's example ends every time; %u logins, and EAP Success lost %u times\n",
           ends[0][ZT_PEER_SUCCESS], success_was_lost);
    return 0;
}
