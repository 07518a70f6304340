/* Counts the machine instructions of a judged wrong Response, one by one, by stepping a child through the call: for names of one
 * length the count is the same whether there is such an account or not, wherever it stands, and whatever octets of the
 * NT-Response are wrong; and what the walk over a table adds is the same for names of every length. */
#define _DEFAULT_SOURCE
#include <signal.h>
#include <stdio.h>
#include <stdlib.h>
#include <string.h>
#include <sys/ptrace.h>
#include <sys/types.h>
#include <sys/wait.h>
#include <unistd.h>

#include "zirgumtak.h"

/* The archive's own copies and fills, so that no count hangs on the C library. */
void *memcpy(void *to, const void *from, size_t n)
{
    volatile uint8_t *d = to;
    const uint8_t *s = from;
    for (size_t i = 0; i < n; i++) d[i] = s[i];
    return to;
}

void *memset(void *to, int octet, size_t n)
{
    volatile uint8_t *d = to;
    for (size_t i = 0; i < n; i++) d[i] = (uint8_t)octet;
    return to;
}

static void fail(const char *what)
{
    printf("count.c: %s\n", what);
    exit(1);
}

/* ---- the count */

static long instructions(void (*call)(void))
{
    int status;
    long steps = 0;
    pid_t child = fork();
    if (child < 0) fail("no child");
    if (child == 0) {
        if (ptrace(PTRACE_TRACEME, 0, NULL, NULL) != 0) _exit(2);
        raise(SIGSTOP);
        call();
        raise(SIGSTOP);
        _exit(0);
    }
    if (waitpid(child, &status, 0) != child || !WIFSTOPPED(status)) fail("the child cannot be traced");
    do {
        if (ptrace(PTRACE_SINGLESTEP, child, NULL, NULL) != 0) fail("the child cannot be stepped");
        if (waitpid(child, &status, 0) != child || !WIFSTOPPED(status)) fail("the child ended early");
        steps++;
    } while (WSTOPSIG(status) == SIGTRAP);
    kill(child, SIGKILL);
    waitpid(child, &status, 0);
    return steps;
}

/* ---- a table, and a Response to judge by it */

static const uint8_t CHALLENGE[16] = {9}, PEER_CHALLENGE[16] = {8}, FRESH[16] = {10};
static const uint8_t SERVER_NAME[] = {'d', 'e', 'p', 'o', 't'};

static uint8_t table[ZT_MAX_TABLE], packet[ZT_PEER_ROOM], reply[ZT_SERVER_ROOM];
static uint8_t fresh_server[ZT_SERVER_OCTETS], server[ZT_SERVER_OCTETS];
static size_t table_len, packet_len;

static void judge(void)
{
    zt_server_packet(server, sizeof server, packet, packet_len, table, table_len, FRESH, 16, reply, sizeof reply);
}

static void start(unsigned retries)
{
    zt_server_new(fresh_server, sizeof fresh_server);
    if (ZT_NUMBER(zt_server_start(fresh_server, sizeof fresh_server, 1, CHALLENGE, 16, SERVER_NAME, sizeof SERVER_NAME,
                                  retries, reply, sizeof reply)) != ZT_WRITTEN) fail("the server does not start");
}

/* A name of this length that begins and ends with these octets. */
static void name_of(uint8_t *name, size_t len, uint8_t first, uint8_t last)
{
    memset(name, 'n', len);
    if (len > 0) name[0] = first;
    if (len > 1) name[len - 1] = last;
}

static void hash_of(uint8_t *hash, uint8_t first)
{
    memset(hash, 0x55, 16);
    hash[0] = first;
}

static void record(unsigned kind, unsigned code, uint8_t first, uint8_t last, size_t name_len)
{
    uint8_t *at = table + table_len;
    size_t len = 22 + name_len;
    at[0] = (uint8_t)(len % 256);
    at[1] = (uint8_t)(len / 256);
    at[2] = (uint8_t)kind;
    at[3] = 0;
    at[4] = (uint8_t)(code % 256);
    at[5] = (uint8_t)(code / 256);
    hash_of(at + 6, first);
    name_of(at + 22, name_len, first, last);
    table_len += len;
}

/* The accounts a, m and z of names of this length, first, in the middle and last, and others between them. */
static void fill(size_t name_len)
{
    table_len = 0;
    record(1, 0, 'a', 'y', name_len);
    record(1, 0, 'b', 'y', 4);
    record(2, 9, 'c', 'y', 30);
    record(1, 647, 'm', 'y', name_len);
    record(1, 0, 'd', 'y', 10);
    record(1, 0, 'e', 'y', 21);
    record(1, 0, 'z', 'y', name_len);
}

/* A Response of this name; its NT-Response is the one for this name's hash, changed at octet k, or right where k is 24. */
static void respond(const uint8_t *name, size_t name_len, size_t k)
{
    uint8_t *at = packet, hash[16];
    memset(packet, 0, sizeof packet);
    packet_len = 59 + name_len;
    at[0] = 2;
    at[1] = 1;
    at[2] = (uint8_t)(packet_len / 256);
    at[3] = (uint8_t)(packet_len % 256);
    at[4] = 26;
    at[5] = 2;
    at[6] = 1;
    at[7] = (uint8_t)((packet_len - 5) / 256);
    at[8] = (uint8_t)((packet_len - 5) % 256);
    at[9] = 49;
    memcpy(at + 10, PEER_CHALLENGE, 16);
    hash_of(hash, name_len > 0 ? name[0] : 'z');
    zt_nt_response(CHALLENGE, 16, PEER_CHALLENGE, 16, name, name_len, hash, 16, at + 34, 24);
    if (k < 24) at[34 + k] ^= 1;
    memcpy(at + 59, name, name_len);
}

/* The count for a Response of this name, which is answered with a Failure Request, error 691. */
static long wrong(uint8_t first, uint8_t last, size_t name_len, size_t k)
{
    uint8_t name[256];
    name_of(name, name_len, first, last);
    respond(name, name_len, k);
    memcpy(server, fresh_server, sizeof server);
    judge();
    if (memcmp(reply + 9, "E=691", 5) != 0) fail("a wrong Response is not told 691");
    memcpy(server, fresh_server, sizeof server);
    return instructions(judge);
}

/* ---- what is compared */

static long same(long count, long other, const char *what, size_t name_len)
{
    if (count == other) return count;
    printf("count.c: %s, names of %zu octets: %ld instructions, and %ld\n", what, name_len, count, other);
    exit(1);
}

/* Known and unknown names of one length, and wrong octets anywhere. */
static long of_one_length(size_t name_len)
{
    long count;
    fill(name_len);
    count = wrong('q', 'y', name_len, 0);
    same(count, wrong('a', 'y', name_len, 0), "the first account", name_len);
    same(count, wrong('m', 'y', name_len, 0), "a disabled account in the middle", name_len);
    same(count, wrong('z', 'y', name_len, 0), "the last account", name_len);
    same(count, wrong('z', 'y', name_len, 23), "the last octet wrong, and not the first", name_len);
    same(count, wrong('q', 'y', name_len, 24), "right for another hash", name_len);
    if (name_len > 1) same(count, wrong('z', 'x', name_len, 11), "a name unlike in its last octet", name_len);
    return count;
}

/* What the walk over one table adds to the work for a name of any length, known or not. */
static long of_the_walk(size_t name_len)
{
    long with, without;
    fill(10);
    with = wrong('z', 'y', name_len, 3);
    table_len = 0;
    record(2, 9, 'c', 'y', 30);
    without = wrong('z', 'y', name_len, 3);
    return with - without;
}

/* A comparison that ends early must show. */
static uint8_t one[64], other[64];
static volatile int found;

static void ends_early(void)
{
    size_t i = 0;
    while (i < sizeof one && one[i] == other[i]) i++;
    found = i == sizeof one;
}

int main(void)
{
    static const size_t lengths[] = {1, 10, 256}, all[] = {0, 9, 17, 256};
    long share, early;

    one[0] = 1;
    early = instructions(ends_early);
    one[0] = 0;
    if (instructions(ends_early) == early) fail("a comparison that ends early is not seen");

    start(1);
    fill(10);
    same(wrong('q', 'y', 10, 0), wrong('z', 'y', 10, 23), "a retry left", 10);
    start(0);
    for (size_t i = 0; i < sizeof lengths / sizeof lengths[0]; i++)
        printf("count.c: a wrong Response, names of %zu octets: %ld instructions\n", lengths[i], of_one_length(lengths[i]));
    share = of_the_walk(10);
    for (size_t i = 0; i < sizeof all / sizeof all[0]; i++) same(share, of_the_walk(all[i]), "the walk", all[i]);
    printf("count.c: the walk over seven records: %ld instructions, whatever the name\n", share);
    return 0;
}
