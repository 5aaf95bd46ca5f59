/* How much of the stack each call takes: on a thread whose stack is painted before. */
#define _POSIX_C_SOURCE 200112L
#include <pthread.h>
#include <stdint.h>
#include <stdio.h>
#include <stdlib.h>
#include <string.h>

#include "btpu.h"

#define STACK (1024 * 1024)
#define PAINT 0xa5
#define FRAME_SIZE 128
#define BUNDLES 3 /* of the frames that main makes */
#define REFUSED 2

static uint8_t board[BTPU_RECEIVER_IMAGE];
static uint8_t board_00[BTPU_RECEIVER_IMAGE];
static uint8_t small_board[BTPU_RECEIVER_IMAGE];
static uint8_t sender[BTPU_SENDER_IMAGE];
static uint8_t sender_00[BTPU_SENDER_IMAGE];
static uint8_t pool[BTPU_POOL(BTPU_MAX_WINDOW)];
static uint8_t small_pool[BTPU_POOL(BTPU_PLAIN_WINDOW)];
static uint8_t frame[FRAME_SIZE];
static uint8_t bundle[BTPU_MAX_BUNDLE];
static uint8_t joined[BTPU_RECORDED_OCTETS];
static uint16_t sizes[BTPU_RECORDED_FRAMES];
static uint8_t recording[BTPU_MAX_RECORDING];
static size_t joined_len, frames, recording_len;
static uint8_t output[BTPU_RECORDED_OCTETS];
static uint16_t lengths[BTPU_PLAYED_BUNDLES];
static uint32_t places[BTPU_RECORDED_FRAMES];
static uint32_t reasons[BTPU_RECORDED_FRAMES];
static uint64_t result[BTPU_RESULT];

static void expect(int good, const char *what)
{
    if (!good) {
        fprintf(stderr, "%s\n", what);
        exit(1);
    }
}

static void add(const uint8_t *octets, size_t n)
{
    memcpy(joined + joined_len, octets, n);
    joined_len += n;
    sizes[frames++] = (uint16_t)n;
}

/* A frame of one bundle message with as many hints as there can be; the last says whether another follows. */
static void add_hints(uint8_t last)
{
    uint8_t long_frame[BTPU_MAX_FRAME] = {0x02, 0x80, 0x07, 0xfc};
    for (size_t at = 4; at < sizeof long_frame; at += 2)
        long_frame[at] = at + 2 < sizeof long_frame ? 3 : last;
    add(long_frame, sizeof long_frame);
}

/* ---- the calls, each on a thread of its own */

static void *start_receiver(void *unused)
{
    expect(btpu_receiver_start(small_board) == 0, "receiver_start");
    return unused;
}

static void *start_receiver_window(void *unused)
{
    expect(btpu_receiver_start_window(board, BTPU_MAX_WINDOW) == 0, "receiver_start_window");
    return unused;
}

static void *start_receiver_00(void *unused)
{
    expect(btpu_receiver_start_00(board_00, BTPU_MAX_WINDOW) == 0, "receiver_start_00");
    return unused;
}

static void *check_receiver(void *unused)
{
    expect(btpu_receiver_check(board) == 0, "receiver_check");
    return unused;
}

static void receive_with(uint8_t *state, uint8_t *lent, size_t lent_len)
{
    size_t at = 0, bundles = 0, refused = 0;
    for (size_t k = 0; k < frames; at += sizes[k++]) {
        uint64_t next = 0;
        for (;;) {
            if (btpu_receive(state, lent, lent_len, joined + at, sizes[k], next, output,
                             sizeof output, result) != 0) {
                refused++;
                break;
            }
            if (result[BTPU_ANSWER] == BTPU_FINISHED)
                break;
            bundles++;
            next = result[BTPU_PLACE];
        }
    }
    expect(bundles == BUNDLES && refused == REFUSED, "what was received");
}

static void *receive(void *unused)
{
    receive_with(board, pool, sizeof pool);
    return unused;
}

static void *receive_small(void *unused)
{
    receive_with(small_board, small_pool, sizeof small_pool);
    return unused;
}

/* In draft 00: a bundle, a transfer whose start comes last, and a length past the frame. */
static void *receive_00(void *unused)
{
    static const uint8_t good[] = {0x02, 0, 0, 1, 0x41,
                                   0x04, 0, 0, 9, 0, 0, 0, 5, 0, 0, 0, 0, 0x43,
                                   0x03, 0, 0, 9, 0, 0, 0, 5, 0, 0, 0, 1, 0x42};
    static const uint8_t hinted[] = {0x02, 0x80, 0, 2, 2, 0};
    const uint64_t ends[] = {5, sizeof good};
    uint64_t next = 0;
    for (size_t k = 0; k < 2; k++) {
        expect(btpu_receive(board_00, pool, sizeof pool, good, sizeof good, next, output,
                            sizeof output, result) == 0 &&
                   result[BTPU_ANSWER] == BTPU_BUNDLE && result[BTPU_PLACE] == ends[k],
               "a bundle of draft 00");
        next = result[BTPU_PLACE];
    }
    expect(result[BTPU_LENGTH] == 2 && output[0] == 0x42 && output[1] == 0x43, "joined falling");
    expect(btpu_receive(board_00, pool, sizeof pool, hinted, sizeof hinted, 0, output,
                        sizeof output, result) == BTPU_REFUSED_LENGTH,
           "a length of draft 00");
    return unused;
}

static void *receive_burst(void *unused)
{
    static uint64_t numbers[BTPU_BURST_BUNDLES], taken[BTPU_BURST_RESULT];
    expect(btpu_receiver_start_window(board, BTPU_MAX_WINDOW) == 0, "receiver_start_window");
    expect(btpu_receive_burst(board, pool, sizeof pool, sizes, frames, joined, joined_len, 0, 0,
                              output, sizeof output, lengths, numbers, places, reasons,
                              taken) == 0,
           "receive_burst");
    expect(taken[BTPU_BURST_COUNT] == BUNDLES && taken[BTPU_BURST_REFUSED] == REFUSED,
           "what a burst took");
    return unused;
}

static void *start_sender(void *unused)
{
    expect(btpu_sender_start(sender, FRAME_SIZE, 0) == 0, "sender_start");
    return unused;
}

static void *start_sender_00(void *unused)
{
    expect(btpu_sender_start_00(sender_00, FRAME_SIZE, 0) == 0, "sender_start_00");
    return unused;
}

static void *check_sender(void *unused)
{
    expect(btpu_sender_check(sender) == 0, "sender_check");
    return unused;
}

static void *place(void *unused)
{
    expect(btpu_place(sender, bundle, sizeof bundle, frame, sizeof frame, result) == 0, "place");
    return unused;
}

static void *place_00(void *unused)
{
    expect(btpu_place(sender_00, bundle, sizeof bundle, frame, sizeof frame, result) == 0 &&
               sender_00[BTPU_SENDER_BEGUN] == 1,
           "place in draft 00");
    return unused;
}

static void *cancel(void *unused)
{
    expect(btpu_cancel(sender, frame, sizeof frame, result) == 0, "cancel");
    return unused;
}

static void *flush(void *unused)
{
    expect(btpu_flush(sender, frame, sizeof frame, result) == 0, "flush");
    return unused;
}

static void *record(void *unused)
{
    expect(btpu_record(sizes, frames, joined, joined_len, recording, sizeof recording, result) == 0,
           "record");
    recording_len = (size_t)result[BTPU_WRITTEN];
    return unused;
}

static void *open_recording(void *unused)
{
    static uint16_t opened[BTPU_RECORDED_FRAMES];
    expect(btpu_recording_open(recording, recording_len, opened, result) == 0, "recording_open");
    return unused;
}

static void *play(void *unused)
{
    expect(btpu_play(recording, recording_len, UINT64_MAX, pool, sizeof pool, output, sizeof output,
                     lengths, BTPU_PLAYED_BUNDLES, places, BTPU_RECORDED_FRAMES, reasons,
                     BTPU_RECORDED_FRAMES, result) == 0,
           "play");
    expect(result[BTPU_PLAYED_COUNT] == BUNDLES && result[BTPU_PLAYED_REFUSED] == REFUSED,
           "what was played");
    return unused;
}

/* The octets of a painted stack that a thread writes to, with what the thread itself needs. */
static size_t used(void *(*body)(void *))
{
    void *stack = NULL;
    pthread_attr_t attributes;
    pthread_t thread;
    expect(posix_memalign(&stack, 4096, STACK) == 0, "memory");
    memset(stack, PAINT, STACK);
    expect(pthread_attr_init(&attributes) == 0 &&
               pthread_attr_setstack(&attributes, stack, STACK) == 0 &&
               pthread_create(&thread, &attributes, body, NULL) == 0 &&
               pthread_join(thread, NULL) == 0,
           "thread");
    size_t clean = 0;
    while (clean < STACK && ((uint8_t *)stack)[clean] == PAINT)
        clean++;
    free(stack);
    return STACK - clean;
}

int main(void)
{
    static const uint8_t whole[] = {0x02, 0, 0, 1, 0x41};
    static const uint8_t segment[] = {0x03, 0x80, 0, 13, 3, 1, 0, 2, 0, 0, 0, 0, 5, 0, 0, 0, 0};
    static const uint8_t end[] = {0x04, 0, 0, 9, 0, 0, 0, 5, 0, 0, 0, 1, 0x42};
    static const uint8_t cut_short[] = {0x03, 0, 0};
    add(whole, sizeof whole);
    add(segment, sizeof segment);
    add(end, sizeof end);
    add(cut_short, sizeof cut_short);
    add_hints(2); /* the chain ends with the frame: an empty bundle */
    add_hints(3); /* the chain runs past it: refusal 7 */

    static const struct {
        const char *name;
        void *(*body)(void *);
        size_t most;
    } calls[] = {
        {"receiver_start", start_receiver, BTPU_STACK},
        {"receiver_start_window", start_receiver_window, BTPU_STACK},
        {"receive, window 8", receive_small, BTPU_STACK}, {"receive", receive, BTPU_STACK},
        {"receiver_check", check_receiver, BTPU_STACK}, {"receive_burst", receive_burst, BTPU_STACK},
        {"receiver_start_00", start_receiver_00, BTPU_STACK},
        {"receive, draft 00", receive_00, BTPU_STACK},
        {"sender_start", start_sender, BTPU_STACK},
        {"place", place, BTPU_STACK},                   {"sender_check", check_sender, BTPU_STACK},
        {"sender_start_00", start_sender_00, BTPU_STACK},
        {"place, draft 00", place_00, BTPU_STACK},
        {"cancel", cancel, BTPU_STACK},                 {"flush", flush, BTPU_STACK},
        {"record", record, BTPU_STACK},                 {"recording_open", open_recording, BTPU_STACK},
        {"play", play, BTPU_PLAY_STACK},
    };
    for (size_t k = 0; k < sizeof calls / sizeof calls[0]; k++) {
        size_t octets = used(calls[k].body);
        printf("%s %zu\n", calls[k].name, octets);
        expect(octets <= calls[k].most, "more than the header says");
    }
    return 0;
}
