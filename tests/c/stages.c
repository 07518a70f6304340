/* Every octet as a stage: ZT_PEER_STAGE and ZT_SERVER_STAGE give FAILED for those that are none, and so do the calls:
 * they take nothing in them, and leave them as they are. Says the first surprise and ends with status 1. */
#include <stdio.h>
#include <stdlib.h>
#include <string.h>

#include "zirgumtak.h"

#define EXPECT(fact) expect((fact), #fact, __LINE__)
#define CALLS 4

static const uint8_t HASH[16] = {7}, CHALLENGE[16] = {9}, RANDOM[16] = {10}, FRESH[16] = {11};
static const uint8_t NAME[] = {'f', 'r', 'z'};
static const uint8_t EAP_SUCCESS[] = {3, 1, 0, 4}, EAP_FAILURE[] = {4, 1, 0, 4};
static const uint8_t TABLE[] = {25, 0, 1, 0, 0, 0, 7, 0, 0, 0, 0, 0, 0, 0, 0, 0, 0, 0, 0, 0, 0, 0, 'f', 'r', 'z'};

/* A peer and a server after the Challenge and the Response below. */
static uint8_t peer[ZT_PEER_OCTETS], server[ZT_SERVER_OCTETS];
static uint8_t challenge[ZT_SERVER_ROOM], response[ZT_PEER_ROOM];
static size_t challenge_len, response_len;
static unsigned octet;

static void expect(int holds, const char *fact, int line)
{
    if (!holds) {
        printf("stages.c:%d: not so, of the stage octet %u: %s\n", line, octet, fact);
        exit(1);
    }
}

static uint64_t to_peer(unsigned call, uint8_t *state)
{
    uint8_t reply[ZT_PEER_ROOM];
    switch (call) {
    case 0: return zt_peer_step(state, sizeof peer, challenge, challenge_len, RANDOM, 16, reply, sizeof reply);
    case 1: return zt_peer_step(state, sizeof peer, EAP_SUCCESS, 4, RANDOM, 16, reply, sizeof reply);
    case 2: return zt_peer_step(state, sizeof peer, EAP_FAILURE, 4, RANDOM, 16, reply, sizeof reply);
    default: return zt_peer_give_up(state, sizeof peer);
    }
}

static uint64_t to_server(unsigned call, uint8_t *state)
{
    static const uint8_t success_response[] = {2, 1, 0, 6, 26, 3}, failure_response[] = {2, 1, 0, 6, 26, 4};
    uint8_t reply[ZT_SERVER_ROOM];
#define PACKET(packet, len) \
    zt_server_packet(state, sizeof server, packet, len, TABLE, sizeof TABLE, FRESH, 16, reply, sizeof reply)
    switch (call) {
    case 0: return zt_server_start(state, sizeof server, 1, CHALLENGE, 16, NAME, 3, 0, reply, sizeof reply);
    case 1: return PACKET(response, response_len);
    case 2: return PACKET(success_response, sizeof success_response);
    default: return PACKET(failure_response, sizeof failure_response);
    }
#undef PACKET
}

/* How many of an end's calls are taken under this stage octet. In an octet that is no stage each is refused with 19,
 * and nothing changes. */
static unsigned taken(uint64_t (*call)(unsigned, uint8_t *), const uint8_t *end, size_t octets, int failed)
{
    uint8_t before[ZT_PEER_OCTETS], after[ZT_PEER_OCTETS];
    unsigned i, n = 0;
    for (i = 0; i < CALLS; i++) {
        uint64_t answer;
        memcpy(before, end, octets);
        before[0] = (uint8_t)octet;
        memcpy(after, before, octets);
        answer = call(i, after);
        n += ZT_NUMBER(answer) < 10;
        if (octet >= (unsigned)failed)
            EXPECT(answer == ZT_NOT_TAKEN && memcmp(before, after, octets) == 0);
    }
    return n;
}

int main(void)
{
    zt_server_new(server, sizeof server);
    challenge_len = ZT_N(zt_server_start(server, sizeof server, 1, CHALLENGE, 16, NAME, 3, 0, challenge, sizeof challenge));
    zt_peer_new(peer, sizeof peer, NAME, 3, HASH, 16);
    response_len = ZT_N(zt_peer_step(peer, sizeof peer, challenge, challenge_len, RANDOM, 16, response, sizeof response));
    for (octet = 0; octet < 256; octet++) {
        uint8_t state[1];
        state[0] = (uint8_t)octet;
        EXPECT(ZT_PEER_STAGE(state) == (int)(octet < 6 ? octet : 6));
        EXPECT(ZT_SERVER_STAGE(state) == (int)(octet < 5 ? octet : 5));
        EXPECT((taken(to_peer, peer, sizeof peer, ZT_PEER_FAILED) > 0) == (ZT_PEER_STAGE(state) < ZT_PEER_SUCCESS));
        EXPECT((taken(to_server, server, sizeof server, ZT_SERVER_FAILED) > 0) == (ZT_SERVER_STAGE(state) < ZT_SERVER_SUCCESS));
    }
    puts("stages.c: an octet that is no stage is FAILED, for the header and the calls");
    return 0;
}
