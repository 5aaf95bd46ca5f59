/*
 * Runs the operations of a file (arena.mjs says what it holds) on the native library. For every call it writes what the call
 * returned and each block of 16 octets of the arena in which something changed:
 *
 *     u32 returned, u32 number of runs, for each run: u32 offset, u32 length, octets
 *
 *     native OPERATIONS ANSWERS
 */
#include <stdint.h>
#include <stdio.h>
#include <stdlib.h>
#include <string.h>
#include "btpu.h"

#define LARGEST_ARENA (1 << 19)
#define BLOCK 16
#define PAGE 4096
#define NONE UINT32_C(0xffffffff)
#define RECEIVE 4
#define PLACE 5
#define BURST 5
#define BURST_GIVEN 4
#define BURST_FROM 7

static _Alignas(64) uint8_t arena[LARGEST_ARENA];
static _Alignas(64) uint8_t before[LARGEST_ARENA];
static uint32_t arena_len, result_at;
static uint64_t words[16];
static FILE *in, *out;

static void stop(const char *why)
{
    fprintf(stderr, "native: %s\n", why);
    exit(2);
}

static uint64_t number(int octets)
{
    uint64_t n = 0;
    for (int k = 0; k < octets; k++) {
        int c = getc(in);
        if (c == EOF)
            stop("operations cut short");
        n |= (uint64_t)c << (8 * k);
    }
    return n;
}

static void put32(uint32_t n)
{
    uint8_t octets[4] = {(uint8_t)n, (uint8_t)(n >> 8), (uint8_t)(n >> 16), (uint8_t)(n >> 24)};
    fwrite(octets, 1, sizeof octets, out);
}

static int changed(uint32_t at, uint32_t length)
{
    return memcmp(arena + at, before + at, length) != 0;
}

/* Writes what changed since the last call. Operations other than calls change both arenas. */
static void answer(uint32_t returned)
{
    static uint32_t from[LARGEST_ARENA / BLOCK], length[LARGEST_ARENA / BLOCK];
    uint32_t runs = 0;
    for (uint32_t at = 0; at < arena_len;) {
        if (at % PAGE == 0 && at + PAGE <= arena_len && !changed(at, PAGE)) {
            at += PAGE;
            continue;
        }
        uint32_t start = at;
        while (at < arena_len && changed(at, BLOCK))
            at += BLOCK;
        if (at > start) {
            from[runs] = start;
            length[runs++] = at - start;
        } else {
            at += BLOCK;
        }
    }
    put32(returned);
    put32(runs);
    for (uint32_t k = 0; k < runs; k++) {
        put32(from[k]);
        put32(length[k]);
        fwrite(arena + from[k], 1, length[k], out);
        memcpy(before + from[k], arena + from[k], length[k]);
    }
}

#define N(k) words[k]
#define P(k) (words[k] == NONE ? NULL : (void *)(arena + words[k]))

static uint32_t call(int function)
{
    switch (function) {
    case 0: return btpu_receiver_start(P(0));
    case 1: return btpu_receiver_start_window(P(0), (uint32_t)N(1));
    case 2: return btpu_receiver_start_00(P(0), (uint32_t)N(1));
    case 3: return btpu_receiver_check(P(0));
    case RECEIVE: return btpu_receive(P(0), P(1), N(2), P(3), N(4), N(PLACE), P(6), N(7), P(8));
    case BURST:
        return btpu_receive_burst(P(0), P(1), N(2), P(3), N(BURST_GIVEN), P(5), N(6), N(BURST_FROM), N(BURST_FROM + 1), P(9), N(10),
                                  P(11), P(12), P(13), P(14), P(15));
    case 6: return btpu_sender_start(P(0), N(1), (uint32_t)N(2));
    case 7: return btpu_sender_start_00(P(0), N(1), (uint32_t)N(2));
    case 8: return btpu_sender_check(P(0));
    case 9: return btpu_place(P(0), P(1), N(2), P(3), N(4), P(5));
    case 10: return btpu_cancel(P(0), P(1), N(2), P(3));
    case 11: return btpu_flush(P(0), P(1), N(2), P(3));
    case 12: return btpu_record(P(0), N(1), P(2), N(3), P(4), N(5), P(6));
    case 13: return btpu_recording_open(P(0), N(1), P(2), P(3));
    case 14: return btpu_play(P(0), N(1), N(2), P(3), N(4), P(5), N(6), P(7), N(8), P(9), N(10), P(11), N(12), P(13));
    default: stop("no such function");
    }
    return 0;
}

/* Whether the call that was just made is to be made again; sets where it goes on. */
static int goes_on(int function)
{
    const uint64_t *result = (const uint64_t *)(arena + result_at);
    if (function == BURST) {
        words[BURST_FROM] = result[BTPU_BURST_FRAME];
        words[BURST_FROM + 1] = result[BTPU_BURST_PLACE];
        return words[BURST_FROM] != words[BURST_GIVEN];
    }
    words[PLACE] = result[BTPU_PLACE];
    return result[BTPU_ANSWER] == BTPU_BUNDLE;
}

static uint32_t called(int whole)
{
    int function = (int)number(1), count = (int)number(1);
    if (count > (int)(sizeof words / sizeof *words))
        stop("a call with too many words");
    for (int k = 0; k < count; k++)
        words[k] = number(8);
    for (;;) {
        uint32_t returned = call(function);
        answer(returned);
        if (!whole || returned != 0 || !goes_on(function))
            return returned;
    }
}

static void take(uint32_t at, uint32_t length)
{
    if (at + length > arena_len || fread(arena + at, 1, length, in) != length)
        stop("operations cut short");
    memcpy(before + at, arena + at, length);
}

static void fill(uint32_t at, uint32_t length, int octet)
{
    memset(arena + at, octet, length);
    memset(before + at, octet, length);
}

static void turn(uint32_t at, uint8_t bits)
{
    arena[at] ^= bits;
    before[at] ^= bits;
}

static void run(void)
{
    uint32_t returned = 0;
    for (int operation; (operation = getc(in)) != EOF;) {
        if (operation == 0 || operation == 1) {
            returned = called(operation);
            continue;
        }
        uint32_t at = operation == 6 ? 0 : (uint32_t)number(4);
        uint32_t length = operation == 2 || operation == 3 ? (uint32_t)number(4) : 0;
        uint8_t octet = operation == 2 ? 0 : (uint8_t)number(1);
        if (operation == 2)
            take(at, length);
        else if (operation == 3)
            fill(at, length, octet);
        else if (operation == 4 || (operation == 5 && returned != 0))
            turn(at, octet);
        else if (operation > 6)
            stop("no such operation");
    }
}

int main(int count, char **arguments)
{
    if (count != 3)
        stop("usage: native OPERATIONS ANSWERS");
    in = fopen(arguments[1], "rb");
    out = fopen(arguments[2], "wb");
    if (in == NULL || out == NULL)
        stop("a file can't be opened");
    setvbuf(in, NULL, _IOFBF, 1 << 20);
    setvbuf(out, NULL, _IOFBF, 1 << 20);
    arena_len = (uint32_t)number(4);
    number(4); /* the near part is no matter here: all octets are compared after every call */
    result_at = (uint32_t)number(4);
    if (arena_len > LARGEST_ARENA || arena_len % BLOCK != 0)
        stop("not an arena for this program");
    run();
    return fclose(out) != 0;
}
