/* Counts how often each call copies the long array of its state, the peer's request of 1,020 octets or the server's
 * of 282, alone, with more of the state, or but for a few octets. A call decodes the state, makes the state after it, and
 * encodes that: three copies. At a server that asks again or ends the back end makes up to four
 * more. A call that makes more than stands beside it ends this program with status 1. tests/c/run links it so that the archive's memcpy and memmove are
 * those below. */
#include <stdio.h>
#include <string.h>

#include "zirgumtak.h"

#define PEER_COPY 1000
#define SERVER_COPY 250

void *__real_memcpy(void *to, const void *from, size_t n);
void *__real_memmove(void *to, const void *from, size_t n);

static size_t least;
static unsigned copies, surprises;

void *__wrap_memcpy(void *to, const void *from, size_t n)
{
    copies += n >= least;
    return __real_memcpy(to, from, n);
}

void *__wrap_memmove(void *to, const void *from, size_t n)
{
    copies += n >= least;
    return __real_memmove(to, from, n);
}

static const uint8_t HASH[16] = {7}, WRONG_HASH[16] = {8}, CHALLENGE[16] = {9}, RANDOM[16] = {10};
static const uint8_t NAME[] = {'f', 'r', 'z'};
static const uint8_t TABLE[] = {25, 0, 1, 0, 0, 0, 7, 0, 0, 0, 0, 0, 0, 0, 0, 0, 0, 0, 0, 0, 0, 0, 'f', 'r', 'z'};

static uint8_t peer[ZT_PEER_OCTETS], server[ZT_SERVER_OCTETS], request[ZT_SERVER_ROOM], reply[ZT_PEER_ROOM];
/* Another one for each Response. */
static uint8_t fresh[16];
/* How long the packet on its way is. */
static size_t length;

static void counting(size_t copy)
{
    least = copy;
    copies = 0;
}

static void done(const char *call, uint64_t answer, unsigned number, unsigned most)
{
    unsigned made = copies;
    printf("  %u  %s\n", made, call);
    if (ZT_NUMBER(answer) != number || made > most) {
        printf("copies.c: answer %u and %u copies, not %u and at most %u\n", ZT_NUMBER(answer), made, number, most);
        surprises++;
    }
    if (ZT_N(answer) > 0)
        length = ZT_N(answer);
}

static void start(const uint8_t *hash, unsigned retries)
{
    zt_peer_new(peer, sizeof peer, NAME, sizeof NAME, hash, 16);
    zt_server_new(server, sizeof server);
    counting(SERVER_COPY);
    done("server, start", zt_server_start(server, sizeof server, 1, CHALLENGE, 16, NAME, sizeof NAME, retries,
                                          request, sizeof request), ZT_WRITTEN, 1);
}

static void to_peer(const char *call, unsigned number, unsigned most)
{
    counting(PEER_COPY);
    done(call, zt_peer_step(peer, sizeof peer, request, length, RANDOM, 16, reply, sizeof reply), number, most);
}

static void to_server(const char *call, unsigned number, unsigned most)
{
    fresh[0]++;
    counting(SERVER_COPY);
    done(call, zt_server_packet(server, sizeof server, reply, length, TABLE, sizeof TABLE, fresh, 16,
                                request, sizeof request), number, most);
}

static void right_password(void)
{
    start(HASH, 0);
    to_peer("peer, Challenge", ZT_WRITTEN, 3);
    to_server("server, right Response", ZT_WRITTEN, 7);
    to_peer("peer, Success Request", ZT_WRITTEN, 3);
    to_server("server, Success Response", ZT_AUTHENTICATED, 4);
    to_peer("peer, EAP Success", ZT_AUTHENTICATED, 3);
    length = 3;
    to_peer("peer, a packet of 3 octets", ZT_SHORT, 2);
    to_server("server, a packet of 3 octets", ZT_SHORT, 1);
}

static void wrong_passwords(void)
{
    uint8_t waiting[ZT_PEER_OCTETS];
    start(WRONG_HASH, 1);
    to_peer("peer, Challenge", ZT_WRITTEN, 3);
    counting(SERVER_COPY);
    done("server, resend", zt_server_resend(server, sizeof server, request, sizeof request), ZT_WRITTEN, 1);
    to_peer("peer, the Challenge again", ZT_WRITTEN, 3);
    to_server("server, wrong Response, a retry left", ZT_WRITTEN, 7);
    to_peer("peer, Failure Request, R=1", ZT_NEEDS_CREDENTIALS, 3);
    memcpy(waiting, peer, sizeof peer);
    counting(PEER_COPY);
    done("peer, give up", zt_peer_give_up(waiting, sizeof waiting), ZT_ENDED, 0);
    counting(PEER_COPY);
    done("peer, supply", zt_peer_supply(peer, sizeof peer, NAME, sizeof NAME, WRONG_HASH, 16, RANDOM, 16,
                                        reply, sizeof reply), ZT_WRITTEN, 3);
    to_server("server, wrong Response, no retry left", ZT_WRITTEN, 7);
    to_peer("peer, Failure Request, R=0", ZT_WRITTEN, 3);
    to_server("server, Failure Response", ZT_ENDED, 4);
    to_peer("peer, EAP Failure", ZT_ENDED, 3);
}

int main(void)
{
    puts("copies.c: how often each call copies the long array of its state");
    right_password();
    wrong_passwords();
    return surprises != 0;
}
