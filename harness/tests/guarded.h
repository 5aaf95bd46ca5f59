/* For guarded.c: memory between guard pages, random numbers, and counts of what calls reached. */
#ifndef GUARDED_H
#define GUARDED_H

#include <signal.h>
#include <stddef.h>
#include <stdint.h>
#include <stdio.h>
#include <stdlib.h>
#include <string.h>
#include <sys/mman.h>
#include <time.h>
#include <unistd.h>

#include "btpu.h"

#define PAGE 4096
#define NOISE (64 * PAGE)
#define NUMBERS 25 /* one more than the greatest number of a refusal */

/* As an image says it. */
enum draft { DRAFT_02, DRAFT_00, DRAFTS };

#define WINDOWS 3
static const uint32_t windows[WINDOWS] = {4, 8, BTPU_MAX_WINDOW};

enum function {
    RECEIVER_START, RECEIVER_START_WINDOW, RECEIVER_START_00, RECEIVER_CHECK, RECEIVE, RECEIVE_BURST, SENDER_START,
    SENDER_START_00, SENDER_CHECK, PLACE, CANCEL, FLUSH, RECORD, RECORDING_OPEN, PLAY, FUNCTIONS
};

/* What is lent. The receiver's own pool has an area of its own, and stays where it is. */
enum lent {
    STATE, POOL, OTHER_POOL, FRAME, OUTPUT, LONG_OUTPUT, BUNDLE, FRAME_BUFFER, SIZES, OCTETS,
    RECORDING, LENGTHS, BUNDLE_NUMBERS, PLACES, REASONS, RESULT, AREAS
};

#define BIT(number) (UINT32_C(1) << (number))
#define NEW BIT(DRAFT_02)
#define OLD BIT(DRAFT_00)
#define BY_IMAGE (NEW | OLD)

/* The refusals that the header lists, what comes with a length and so may be NULL, the drafts, where
   the image says its draft, and whether the image that is left says a window. */
static const struct {
    const char *name;
    uint32_t refusals, lengths, drafts;
    size_t draft_at;
    int windowed;
} functions[FUNCTIONS] = {
    {"btpu_receiver_start", 0, 0, NEW, 0, 0},
    {"btpu_receiver_start_window", BIT(21), 0, NEW, 0, 1},
    {"btpu_receiver_start_00", BIT(21), 0, OLD, 0, 1},
    {"btpu_receiver_check", BIT(1), 0, BY_IMAGE, BTPU_RECEIVER_DRAFT, 1},
    {"btpu_receive", BIT(1) | BIT(2) | BIT(3) | BIT(4) | BIT(6) | BIT(7) | BIT(8) | BIT(9),
     BIT(OTHER_POOL) | BIT(FRAME) | BIT(OUTPUT), BY_IMAGE, BTPU_RECEIVER_DRAFT, 1},
    {"btpu_receive_burst", BIT(1) | BIT(2) | BIT(3) | BIT(9) | BIT(19),
     BIT(OTHER_POOL) | BIT(SIZES) | BIT(OCTETS) | BIT(LONG_OUTPUT), BY_IMAGE,
     BTPU_RECEIVER_DRAFT, 1},
    {"btpu_sender_start", BIT(14), 0, NEW, 0, 0},
    {"btpu_sender_start_00", BIT(14), 0, OLD, 0, 0},
    {"btpu_sender_check", BIT(1), 0, BY_IMAGE, BTPU_SENDER_DRAFT, 0},
    {"btpu_place", BIT(1) | BIT(10) | BIT(11) | BIT(12), BIT(BUNDLE) | BIT(FRAME_BUFFER),
     BY_IMAGE, BTPU_SENDER_DRAFT, 0},
    {"btpu_cancel", BIT(1) | BIT(10) | BIT(13), BIT(FRAME_BUFFER), BY_IMAGE, BTPU_SENDER_DRAFT, 0},
    {"btpu_flush", BIT(1) | BIT(10), BIT(FRAME_BUFFER), BY_IMAGE, BTPU_SENDER_DRAFT, 0},
    {"btpu_record", BIT(17) | BIT(18) | BIT(19) | BIT(24),
     BIT(SIZES) | BIT(OCTETS) | BIT(LONG_OUTPUT), NEW, 0, 0},
    {"btpu_recording_open", BIT(16) | BIT(17) | BIT(18) | BIT(19) | BIT(20), BIT(RECORDING), NEW,
     0, 0},
    {"btpu_play", BIT(2) | BIT(16) | BIT(17) | BIT(18) | BIT(19) | BIT(20) | BIT(24),
     BIT(RECORDING) | BIT(OTHER_POOL) | BIT(LONG_OUTPUT) | BIT(LENGTHS) | BIT(PLACES) |
         BIT(REASONS),
     NEW, 0, 0},
};

struct area {
    const char *name;
    size_t room;     /* octets between the guard pages */
    uint8_t *start;  /* the first of them */
    uint8_t *before; /* a copy of them from before the call */
    uint8_t *at;     /* what is lent: start + from, or NULL */
    size_t from, length;
    int is_lent, read_only;
};

static struct area areas[AREAS] = {
    {.name = "state", .room = PAGE},
    {.name = "pool", .room = BTPU_POOL(BTPU_MAX_WINDOW)},
    {.name = "pool of another length", .room = BTPU_POOL(BTPU_MAX_WINDOW) + PAGE},
    {.name = "frame", .room = 2 * PAGE},
    {.name = "output", .room = 2 * PAGE},
    {.name = "output", .room = 17 * PAGE},
    {.name = "bundle", .room = 2 * PAGE},
    {.name = "frame", .room = PAGE},
    {.name = "sizes", .room = PAGE},
    {.name = "octets", .room = 17 * PAGE},
    {.name = "recording", .room = 17 * PAGE},
    {.name = "lengths", .room = 8 * PAGE},
    {.name = "numbers", .room = PAGE},
    {.name = "places", .room = 2 * PAGE},
    {.name = "reasons", .room = 2 * PAGE},
    {.name = "result", .room = PAGE},
};

static enum function now;    /* the function that is called */
static enum draft draft_now; /* of the state that it is called with */
static uint64_t seed, calls;
static uint32_t refused_at; /* the place of the last call's refusal */
static uint64_t reached[DRAFTS][FUNCTIONS][NUMBERS]; /* by refusal; entry 0: carried out */
static uint64_t carried_out[DRAFTS][FUNCTIONS][WINDOWS]; /* by the window that the image says */
static uint64_t pools_refused[FUNCTIONS][WINDOWS][WINDOWS]; /* and by the window of the pool */
static uint32_t null_lent[FUNCTIONS];
static uint8_t noise[NOISE];

static void fail(const char *what, const char *name)
{
    fflush(stdout);
    fprintf(stderr, "seed %llu, call %llu, %s, draft %s: %s %s\n", (unsigned long long)seed,
            (unsigned long long)calls, functions[now].name,
            draft_now == DRAFT_00 ? "00" : "02", what, name);
    _exit(1);
}

static void expect(int good, const char *what)
{
    if (!good)
        fail(what, "");
}

static double seconds_now(void)
{
    struct timespec time;
    expect(clock_gettime(CLOCK_MONOTONIC, &time) == 0, "no clock");
    return (double)time.tv_sec + (double)time.tv_nsec / 1e9;
}

static size_t number16(const uint8_t *at)
{
    return (size_t)at[0] << 8 | at[1];
}

static void put32(uint8_t *to, uint32_t number)
{
    for (int k = 0; k < 4; k++)
        to[k] = (uint8_t)(number >> (24 - 8 * k));
}

/* ---- random numbers */

static uint64_t random_state;

static uint64_t draw(void)
{
    uint64_t z = (random_state += UINT64_C(0x9e3779b97f4a7c15));
    z = (z ^ (z >> 30)) * UINT64_C(0xbf58476d1ce4e5b9);
    z = (z ^ (z >> 27)) * UINT64_C(0x94d049bb133111eb);
    return z ^ (z >> 31);
}

static size_t below(size_t bound)
{
    return (size_t)(draw() % bound);
}

static size_t within(size_t low, size_t high)
{
    return low + below(high - low + 1);
}

static int once_in(size_t times)
{
    return below(times) == 0;
}

#define PICK(list) ((list)[below(sizeof(list) / sizeof(list)[0])])

/* Octets of any content, so many at least. */
static const uint8_t *any_octets(size_t length)
{
    return noise + below(NOISE - length + 1);
}

/* ---- memory */

/* Memory was touched that was not lent, or written to that is to be read only. */
static void touched(int signal, siginfo_t *info, void *context)
{
    (void)signal;
    (void)context;
    for (size_t k = 0; k < AREAS; k++) {
        const uint8_t *at = info->si_addr, *end = areas[k].start + areas[k].room;
        if (at >= areas[k].start && at < end)
            fail("write to the read-only", areas[k].name);
        if (at >= areas[k].start - PAGE && at < end + PAGE)
            fail(at < areas[k].start ? "access before the" : "access behind the", areas[k].name);
    }
    fail("access to memory that was not lent", "");
}

static void reserve_areas(void)
{
    struct sigaction action;
    memset(&action, 0, sizeof action);
    action.sa_sigaction = touched;
    action.sa_flags = SA_SIGINFO;
    expect(sysconf(_SC_PAGESIZE) == PAGE, "another page size");
    expect(sigaction(SIGSEGV, &action, NULL) == 0 && sigaction(SIGBUS, &action, NULL) == 0,
           "no signal handler");
    for (size_t k = 0; k < AREAS; k++) {
        struct area *area = &areas[k];
        uint8_t *pages = mmap(NULL, area->room + 2 * PAGE, PROT_NONE,
                              MAP_PRIVATE | MAP_ANONYMOUS, -1, 0);
        expect(pages != MAP_FAILED, "no memory");
        area->start = pages + PAGE;
        area->before = calloc(1, area->room);
        expect(area->before != NULL &&
                   mprotect(area->start, area->room, PROT_READ | PROT_WRITE) == 0,
               "no memory");
    }
    for (size_t k = 0; k < NOISE; k++)
        noise[k] = (uint8_t)draw();
}

/* Lends so many octets, at the start of the area or at its end, with any octets around them. */
static void lend(enum lent what, const void *content, size_t length)
{
    struct area *area = &areas[what];
    expect(length <= area->room, "too little room");
    area->length = length;
    area->from = once_in(2) ? 0 : area->room - length;
    area->at = length == 0 && once_in(2) ? NULL : area->start + area->from;
    memcpy(area->before, any_octets(area->room), area->room);
    if (length != 0)
        memcpy(area->before + area->from, content, length);
    memcpy(area->start, area->before, area->room);
    area->is_lent = 1;
    area->read_only = 0;
}

static void lend_read_only(enum lent what, const void *content, size_t length)
{
    lend(what, content, length);
    areas[what].read_only = 1;
}

static void lend_any(enum lent what, size_t length)
{
    lend(what, any_octets(length), length);
}

/* The place of a window in the list, or WINDOWS for what is none. */
static size_t place_of(uint32_t window)
{
    size_t k = 0;
    while (k < WINDOWS && windows[k] != window)
        k++;
    return k;
}

/* The pool of a fresh receiver: of its window's length, at either end of the area, of any octets. */
static void keep_pool(uint32_t window)
{
    lend_any(POOL, BTPU_POOL(window));
    areas[POOL].is_lent = 0;
}

/* The length of another pool, half the time that of another window. */
static size_t other_length(size_t right)
{
    size_t length = right;
    while (length == right) {
        size_t pool = BTPU_POOL(PICK(windows));
        const size_t wrong[] = {0, 0, 1, 4096, pool - 1, pool + 1};
        length = once_in(2) ? pool : PICK(wrong);
    }
    return length;
}

/* Lends a pool: the one that is kept or, once in so many times, one of another length. */
static struct area *lend_pool(size_t wrong_once_in)
{
    struct area *pool = &areas[POOL];
    if (once_in(wrong_once_in)) {
        lend_any(OTHER_POOL, other_length(pool->length));
        return &areas[OTHER_POOL];
    }
    pool->is_lent = 1;
    return pool;
}

/* Lends a pool for a playback, of any octets; once in so many times one of another length. */
static struct area *lend_play_pool(size_t wrong_once_in)
{
    size_t right = BTPU_POOL(BTPU_PLAY_WINDOW);
    lend_any(OTHER_POOL, once_in(wrong_once_in) ? other_length(right) : right);
    return &areas[OTHER_POOL];
}

static void expect_same(const struct area *area, size_t from, size_t to)
{
    if (memcmp(area->start + from, area->before + from, to - from) != 0)
        fail("octets changed that must stay: in or around the", area->name);
}

/* After a call that was carried out: what is lent has stayed from this octet on. */
static void expect_stays(enum lent what, size_t from)
{
    expect(from <= areas[what].length, "more written than was lent");
    expect_same(&areas[what], areas[what].from + from, areas[what].room);
}

/* What is lent, as a list of entries of this type. */
#define LIST(type, what) ((type *)(void *)areas[what].at)

static uint64_t *lend_result(void)
{
    lend_any(RESULT, BTPU_RESULT * sizeof(uint64_t));
    return LIST(uint64_t, RESULT);
}

static uint64_t result(size_t entry)
{
    return LIST(uint64_t, RESULT)[entry];
}

/* ---- before and after each call */

/* The draft of a call: the function's, or what the image says; where it says none, it is refused. */
static enum draft draft_of_call(enum function function)
{
    if (functions[function].drafts != BY_IMAGE)
        return functions[function].drafts == OLD ? DRAFT_00 : DRAFT_02;
    return areas[STATE].at[functions[function].draft_at] == DRAFT_00 ? DRAFT_00 : DRAFT_02;
}

static void enter(enum function function)
{
    now = function;
    draft_now = draft_of_call(function);
    calls++;
    for (size_t k = 0; k < AREAS; k++)
        if (areas[k].is_lent && areas[k].read_only)
            expect(mprotect(areas[k].start, areas[k].room, PROT_READ) == 0, "mprotect");
}

/* Takes back what was lent; all of it, or all around it, must have stayed. */
static void take_back(struct area *area, int all_stays)
{
    area->is_lent = 0;
    if (area->read_only)
        expect(mprotect(area->start, area->room, PROT_READ | PROT_WRITE) == 0, "mprotect");
    if (all_stays || area->read_only) {
        expect_same(area, 0, area->room);
        return;
    }
    expect_same(area, 0, area->from);
    expect_same(area, area->from + area->length, area->room);
}

/* The refusals that a function may give in a draft. */
static uint32_t listed(enum function function, enum draft draft)
{
    uint32_t refusals = functions[function].refusals;
    return draft == DRAFT_00 ? refusals & ~BIT(BTPU_REFUSED_HINTS) : refusals;
}

/* The number of the refusal that a call returned, or 0. */
static uint32_t leave(uint32_t returned)
{
    uint32_t number = BTPU_REFUSAL(returned);
    refused_at = BTPU_REFUSAL_PLACE(returned);
    for (size_t k = 0; k < AREAS; k++) {
        if (!areas[k].is_lent)
            continue;
        if (areas[k].at == NULL)
            null_lent[now] |= BIT(k);
        take_back(&areas[k], number != 0);
    }
    expect(number == 0 || (number < NUMBERS && (listed(now, draft_now) & BIT(number)) != 0),
           "a refusal that the header does not list");
    if (number >= 4 && number <= 8)
        expect(refused_at < areas[FRAME].length, "place behind the frame");
    else
        expect(refused_at == 0, "place without a bad message");
    reached[draft_now][now][number]++;
    if (functions[now].windowed && number == 0) {
        size_t window = place_of(areas[STATE].at[BTPU_RECEIVER_WINDOW]);
        expect(window < WINDOWS, "no window in a state that is not refused");
        carried_out[draft_now][now][window]++;
    }
    return number;
}

/* Counts a call on a state of a window that was refused for a pool of this length. */
static void count_pool(uint32_t window, size_t length)
{
    for (size_t k = 0; k < WINDOWS; k++)
        if (BTPU_POOL(windows[k]) == length)
            pools_refused[now][place_of(window)][k]++;
}

/* ---- what was reached */

/* Each call that takes a pool was refused for that of each other window; a playback has one. */
static void expect_pools_refused(void)
{
    for (size_t window = 0; window < WINDOWS; window++) {
        if (now == PLAY && windows[window] != BTPU_PLAY_WINDOW)
            continue;
        for (size_t other = 0; other < WINDOWS; other++)
            expect((pools_refused[now][window][other] == 0) == (other == window),
                   "the pool of a window");
    }
}

static void expect_reached(void)
{
    if (now == RECEIVE || now == RECEIVE_BURST || now == PLAY)
        expect_pools_refused();
    for (draft_now = DRAFT_02; draft_now < DRAFTS; draft_now++) {
        if ((functions[now].drafts & BIT(draft_now)) == 0)
            continue;
        expect(reached[draft_now][now][0] != 0, "never carried out");
        for (size_t k = 0; functions[now].windowed && k < WINDOWS; k++)
            expect(carried_out[draft_now][now][k] != 0, "never carried out with a window");
        for (uint32_t number = 1; number < NUMBERS; number++)
            expect((listed(now, draft_now) & BIT(number)) == 0 ||
                       reached[draft_now][now][number] != 0,
                   "a refusal was not reached");
    }
    for (size_t k = 0; k < AREAS; k++)
        if ((functions[now].lengths & ~null_lent[now] & BIT(k)) != 0)
            fail("NULL was not reached for the", areas[k].name);
}

/* Prints a function's calls, by draft where the image says it, and those carried out by window. */
static void report_draft(enum draft draft)
{
    const uint64_t *counts = reached[draft][now];
    uint64_t sum = 0;
    for (size_t number = 0; number < NUMBERS; number++)
        sum += counts[number];
    if (functions[now].drafts == BY_IMAGE)
        printf(" draft %s:", draft == DRAFT_00 ? "00" : "02");
    printf(" %llu calls, refused", (unsigned long long)sum);
    for (uint32_t number = 1; number < NUMBERS; number++)
        if ((listed(now, draft) & BIT(number)) != 0)
            printf(" %u: %llu", (unsigned)number, (unsigned long long)counts[number]);
    for (size_t k = 0; functions[now].windowed && k < WINDOWS; k++)
        printf(", window %u: %llu", (unsigned)windows[k],
               (unsigned long long)carried_out[draft][now][k]);
    printf(";");
}

/* Prints a line for each function; fails if something was not reached. */
static void report(void)
{
    for (now = RECEIVER_START; now < FUNCTIONS; now++) {
        printf("%s:", functions[now].name);
        for (enum draft draft = DRAFT_02; draft < DRAFTS; draft++)
            if ((functions[now].drafts & BIT(draft)) != 0)
                report_draft(draft);
        printf("\n");
        expect_reached();
    }
    printf("%llu calls\n", (unsigned long long)calls);
}

#endif
