/* Measures the stack of each call, and whether the password hash or the password stays on the dead stack: the calls run on
 * a stack of their own, painted before and searched after. Prints a line for each function: its name, octets, and what
 * stays (hash, units, both or none). tests/c/run holds that against docs/PORTING.md, whose code to wipe with, cut out as
 * wiping.h, is tried here too. x86-64 alone. */
#include <stdio.h>
#include <stdlib.h>
#include <string.h>

#include "zirgumtak.h"
#include "wiping.h"

#define STACK_OCTETS 65536
/* So many octets of a secret in a row are taken for it. */
#define WINDOW 8
#define NAME_LEN ZT_MAX_NAME
#define RECORD (22 + NAME_LEN)

/* The deepest point of a function's calls so far, and what they left. */
struct use {
    const char *name;
    size_t octets;
    int hash, units;
};

static uint8_t stack[STACK_OCTETS] __attribute__((aligned(16)));
static const uint8_t CHALLENGE[16] = {9}, RANDOM[16] = {10}, NT_RESPONSE[24] = {11}, KEY[8] = {12}, STRING[20] = {13};
static uint8_t units[ZT_MAX_PASSWORD], hash[16], wrong_hash[16], name[NAME_LEN], table[RECORD], longer[2 * RECORD];
static size_t units_len = ZT_MAX_PASSWORD;
static uint8_t peer[ZT_PEER_OCTETS], server[ZT_SERVER_OCTETS], fresh[16], out[24];
/* The packet on its way, and the one that answers it. */
static uint8_t packet[ZT_MAX_PACKET], reply[ZT_MAX_PACKET];
static size_t packet_len;
/* Who reads it, and what is read. */
static uint8_t end, reading[ZT_READING_OCTETS];
/* As much of it as a writer takes is a name or a text. */
static const uint8_t text[ZT_MAX_PACKET];
static const uint8_t *supplied = hash;
static unsigned retries;
static uint64_t answer;

/* ---- a stack of its own */

static void on_stack(void (*job)(void))
{
    __asm__ volatile("movq %%rsp, %%rbx\n\tmovq %0, %%rsp\n\tcall *%1\n\tmovq %%rbx, %%rsp"
                     :
                     : "r"(stack + STACK_OCTETS), "r"(job)
                     : "rax", "rbx", "rcx", "rdx", "rsi", "rdi", "r8", "r9", "r10", "r11", "xmm0", "xmm1", "xmm2",
                       "xmm3", "xmm4", "xmm5", "xmm6", "xmm7", "xmm8", "xmm9", "xmm10", "xmm11", "xmm12", "xmm13",
                       "xmm14", "xmm15", "memory", "cc");
}

static size_t used(uint8_t paint)
{
    size_t i = 0;
    while (i < STACK_OCTETS && stack[i] == paint)
        i++;
    return STACK_OCTETS - i;
}

/* Whether the used stack has some octets of this secret in a row, from one of its words on, in either octet order. */
static int stays(const uint8_t *secret, size_t len, size_t depth)
{
    size_t i, j, k;
    for (j = 0; j + WINDOW <= len; j += 4) {
        uint8_t swapped[WINDOW];
        for (k = 0; k < WINDOW; k++)
            swapped[k] = secret[j + (k ^ 3)];
        for (i = STACK_OCTETS - depth; i + WINDOW <= STACK_OCTETS; i++)
            if (memcmp(stack + i, secret + j, WINDOW) == 0 || memcmp(stack + i, swapped, WINDOW) == 0)
                return 1;
    }
    return 0;
}

/* Runs the job twice from the same states, over two paints: an octet that is written equal to one differs from the other. */
static void measure(struct use *use, void (*job)(void))
{
    static const uint8_t paints[] = {0xA5, 0x5A};
    uint8_t peer_before[sizeof peer], server_before[sizeof server];
    int i;
    memcpy(peer_before, peer, sizeof peer);
    memcpy(server_before, server, sizeof server);
    for (i = 0; i < 2; i++) {
        size_t n;
        memcpy(peer, peer_before, sizeof peer);
        memcpy(server, server_before, sizeof server);
        memset(stack, paints[i], sizeof stack);
        on_stack(job);
        n = used(paints[i]);
        if (n > use->octets)
            use->octets = n;
        use->hash |= stays(hash, sizeof hash, n) || stays(wrong_hash, sizeof wrong_hash, n);
        use->units |= stays(units, sizeof units, n);
    }
}

/* ---- the calls */

#define CALL(function, arguments)                                  \
    static void call_##function(void) { answer = zt_##function arguments; } \
    static struct use function = {"zt_" #function, 0, 0, 0}
#define MEASURE(function) measure(&function, call_##function)

CALL(peer_new, (peer, sizeof peer, name, NAME_LEN, supplied, 16));
CALL(peer_step, (peer, sizeof peer, packet, packet_len, RANDOM, 16, reply, sizeof reply));
CALL(peer_supply, (peer, sizeof peer, name, NAME_LEN, supplied, 16, RANDOM, 16, reply, sizeof reply));
CALL(peer_give_up, (peer, sizeof peer));
CALL(server_new, (server, sizeof server));
CALL(server_start, (server, sizeof server, 1, CHALLENGE, 16, name, NAME_LEN, retries, reply, sizeof reply));
CALL(server_packet, (server, sizeof server, packet, packet_len, table, sizeof table, fresh, 16, reply, sizeof reply));
CALL(server_resend, (server, sizeof server, reply, sizeof reply));
CALL(read, (end, packet, packet_len, reading, sizeof reading));
CALL(write_challenge, (1, 1, CHALLENGE, 16, text, 994, reply, sizeof reply));
CALL(write_response, (1, 1, RANDOM, 16, NT_RESPONSE, 24, name, NAME_LEN, reply, sizeof reply));
CALL(write_success_request, (1, 1, STRING, 20, text, 966, reply, sizeof reply));
CALL(write_failure_request, (1, 1, 9999999999u, 1, CHALLENGE, 16, text, 953, reply, sizeof reply));
CALL(write_success_response, (1, reply, sizeof reply));
CALL(write_failure_response, (1, reply, sizeof reply));
CALL(write_eap_success, (1, reply, sizeof reply));
CALL(write_eap_failure, (1, reply, sizeof reply));
CALL(accounts_check, (table, sizeof table));
CALL(accounts_append, (longer, sizeof longer, sizeof table, 0, hash, 16, name, NAME_LEN));
CALL(version, ());
CALL(md4, (units, units_len, out, 16));
CALL(sha1, (units, units_len, out, 20));
CALL(password_hash, (units, units_len, out, 16));
CALL(des, (KEY, sizeof KEY, CHALLENGE, 8, out, 8));
CALL(nt_response, (CHALLENGE, 16, RANDOM, 16, name, NAME_LEN, hash, 16, out, 24));
CALL(authenticator, (hash, 16, NT_RESPONSE, 24, RANDOM, 16, CHALLENGE, 16, name, NAME_LEN, out, 20));

static struct use *const all[] = {&peer_new, &peer_step, &peer_supply, &peer_give_up, &server_new, &server_start,
                                  &server_packet, &server_resend, &read, &write_challenge, &write_response,
                                  &write_success_request, &write_failure_request, &write_success_response,
                                  &write_failure_response, &write_eap_success, &write_eap_failure, &accounts_check,
                                  &accounts_append, &version, &md4, &sha1, &password_hash, &des, &nt_response,
                                  &authenticator};

static void must(unsigned number)
{
    if (ZT_NUMBER(answer) != number) {
        printf("stack.c: answer %u, not %u\n", ZT_NUMBER(answer), number);
        exit(1);
    }
    if (ZT_N(answer) > 0) {
        packet_len = ZT_N(answer);
        memcpy(packet, reply, packet_len);
    }
}

static void to_peer(unsigned number)
{
    end = 0;
    MEASURE(read);
    MEASURE(peer_step);
    must(number);
}

static void to_server(unsigned number)
{
    fresh[0]++;
    end = 1;
    MEASURE(read);
    MEASURE(server_packet);
    must(number);
}

static void start(const uint8_t *with, unsigned allowed)
{
    supplied = with;
    retries = allowed;
    MEASURE(peer_new);
    MEASURE(server_new);
    MEASURE(server_start);
    must(ZT_WRITTEN);
}

static void right_password(void)
{
    start(hash, 0);
    to_peer(ZT_WRITTEN);
    to_server(ZT_WRITTEN);
    to_peer(ZT_WRITTEN);
    to_server(ZT_AUTHENTICATED);
    to_peer(ZT_AUTHENTICATED);
    packet_len = 3;
    to_peer(ZT_SHORT);
    to_server(ZT_SHORT);
}

/* Wrong, then right, then repeated; and wrong to the end. */
static void wrong_passwords(void)
{
    uint8_t waiting[sizeof peer];
    start(wrong_hash, 1);
    MEASURE(server_resend);
    must(ZT_WRITTEN);
    to_peer(ZT_WRITTEN);
    to_server(ZT_WRITTEN);
    to_peer(ZT_NEEDS_CREDENTIALS);
    memcpy(waiting, peer, sizeof peer);
    MEASURE(peer_give_up);
    must(ZT_ENDED);
    memcpy(peer, waiting, sizeof peer);
    supplied = hash;
    MEASURE(peer_supply);
    must(ZT_WRITTEN);
    memcpy(peer, waiting, sizeof peer);
    supplied = wrong_hash;
    MEASURE(peer_supply);
    must(ZT_WRITTEN);
    to_server(ZT_WRITTEN);
    to_peer(ZT_WRITTEN);
    to_server(ZT_ENDED);
    to_peer(ZT_ENDED);
}

/* What was written, read by the end that it is for. */
static void read_back(uint8_t reader)
{
    must(ZT_WRITTEN);
    end = reader;
    MEASURE(read);
    must(0);
}

static void packets(void)
{
    MEASURE(write_challenge);
    read_back(0);
    MEASURE(write_response);
    read_back(1);
    MEASURE(write_success_request);
    read_back(0);
    MEASURE(write_failure_request);
    read_back(0);
    MEASURE(write_success_response);
    read_back(1);
    MEASURE(write_failure_response);
    read_back(1);
    MEASURE(write_eap_success);
    read_back(0);
    MEASURE(write_eap_failure);
    read_back(0);
}

static void without_a_state(void)
{
    MEASURE(accounts_check);
    memcpy(longer, table, sizeof table);
    MEASURE(accounts_append);
    must(ZT_WRITTEN);
    MEASURE(version);
    for (units_len = 0; units_len <= 128; units_len += 2) {
        MEASURE(md4);
        MEASURE(sha1);
        MEASURE(password_hash);
    }
    units_len = ZT_MAX_PASSWORD;
    MEASURE(password_hash);
    MEASURE(des);
    MEASURE(nt_response);
    MEASURE(authenticator);
}

/* Once wiped as the page says, no secret stays below the caller. */
static void step_and_wipe(void)
{
    call_peer_step();
    wipe_stack();
    wipe(peer, sizeof peer);
}

static void hash_and_wipe(void)
{
    call_password_hash();
    wipe_stack();
}

static void wiping(void)
{
    static struct use wiped;
    static const uint8_t zeros[sizeof peer];
    start(hash, 0);
    measure(&wiped, step_and_wipe);
    must(ZT_WRITTEN);
    measure(&wiped, hash_and_wipe);
    if (wiped.hash || wiped.units || memcmp(peer, zeros, sizeof peer) != 0) {
        puts("stack.c: a secret stays although it was wiped");
        exit(1);
    }
}

int main(void)
{
    size_t i;
    for (i = 0; i < sizeof units; i++)
        units[i] = i % 2 == 0 ? (uint8_t)(33 + i / 2 % 90) : 0;
    for (i = 0; i < sizeof name; i++)
        name[i] = (uint8_t)('a' + i % 26);
    zt_password_hash(units, units_len, hash, sizeof hash);
    zt_password_hash(units, 2, wrong_hash, sizeof wrong_hash);
    /* The one account of the table. */
    table[0] = RECORD & 255;
    table[1] = RECORD >> 8;
    table[2] = 1;
    memcpy(table + 6, hash, 16);
    memcpy(table + 22, name, NAME_LEN);
    right_password();
    wrong_passwords();
    packets();
    without_a_state();
    wiping();
    for (i = 0; i < sizeof all / sizeof *all; i++)
        printf("%s %lu %s\n", all[i]->name, (unsigned long)all[i]->octets,
               all[i]->hash ? all[i]->units ? "both" : "hash" : all[i]->units ? "units" : "none");
    return 0;
}
