/*
 * Times the native library on the workloads of a file (work.mjs): nanoseconds for each call, of a burst for each frame, one line for
 * each workload.
 *
 *     bench FILE MILLISECONDS
 */
#define _POSIX_C_SOURCE 199309L
#include <stdint.h>
#include <stdio.h>
#include <stdlib.h>
#include <string.h>
#include <time.h>
#include "btpu.h"

#define BURST_OUTPUT 65536
#define WINDOW 16 /* that of all boards before others could be chosen: figures stay comparable */

enum { RECEIVE, PLACE, PLAY, BURST };

struct work {
    uint32_t kind, size, count;
    uint32_t *length;
    uint8_t **item;
};

static uint8_t state[BTPU_RECEIVER_IMAGE], pool[BTPU_POOL(WINDOW)], frame[BTPU_MAX_FRAME], output[BTPU_RECORDED_OCTETS];
static uint8_t sender[BTPU_SENDER_IMAGE], bundle[BTPU_MAX_BUNDLE], recording[BTPU_MAX_RECORDING];
static uint16_t lengths[BTPU_PLAYED_BUNDLES];
static uint32_t places[BTPU_RECORDED_FRAMES], reasons[BTPU_RECORDED_FRAMES];
static uint64_t result[BTPU_BURST_RESULT];
static uint8_t octets[BTPU_BURST_FRAMES * BTPU_MAX_FRAME], burst_output[BURST_OUTPUT];
static uint16_t sizes[BTPU_BURST_FRAMES];
static uint64_t numbers[BTPU_BURST_BUNDLES];
static FILE *in;

static void stop(const char *why)
{
    fprintf(stderr, "bench: %s\n", why);
    exit(2);
}

static void must(uint32_t returned)
{
    if (returned != 0)
        stop("a call was refused");
}

static uint32_t number(void)
{
    uint8_t b[4];
    if (fread(b, 1, 4, in) != 4)
        stop("workloads cut short");
    return b[0] | (uint32_t)b[1] << 8 | (uint32_t)b[2] << 16 | (uint32_t)b[3] << 24;
}

static double now(void)
{
    struct timespec t;
    clock_gettime(CLOCK_MONOTONIC, &t);
    return t.tv_sec * 1e9 + t.tv_nsec;
}

static uint64_t receive_all(const struct work *w)
{
    uint64_t calls = 0;
    must(btpu_receiver_start_window(state, WINDOW));
    for (uint32_t k = 0; k < w->count; k++) {
        uint64_t place = 0;
        memcpy(frame, w->item[k], w->length[k]);
        for (;;) {
            calls++;
            must(btpu_receive(state, pool, sizeof pool, frame, w->length[k], place, output, BTPU_MIN_OUTPUT, result));
            if (result[BTPU_ANSWER] != BTPU_BUNDLE)
                break;
            place = result[BTPU_PLACE];
        }
    }
    return calls;
}

static uint64_t place_all(const struct work *w)
{
    uint64_t calls = 0;
    must(btpu_sender_start(sender, w->size, 0));
    for (uint32_t k = 0; k < w->count; k++) {
        memcpy(bundle, w->item[k], w->length[k]);
        do {
            calls++;
            must(btpu_place(sender, bundle, w->length[k], frame, w->size, result));
        } while (result[BTPU_ANSWER] == BTPU_READY || sender[BTPU_SENDER_BEGUN]);
    }
    return calls;
}

static uint64_t play_all(const struct work *w)
{
    for (uint32_t k = 0; k < w->count; k++) {
        memcpy(recording, w->item[k], w->length[k]);
        must(btpu_play(recording, w->length[k], UINT64_MAX, pool, sizeof pool, output, BTPU_RECORDED_OCTETS, lengths,
                       BTPU_PLAYED_BUNDLES, places, BTPU_RECORDED_FRAMES, reasons, BTPU_RECORDED_FRAMES, result));
    }
    return w->count;
}

/* All items in one burst, continued to its end; answers the number of frames. */
static uint64_t burst_all(const struct work *w)
{
    uint64_t total = 0;
    must(btpu_receiver_start_window(state, WINDOW));
    for (uint32_t k = 0; k < w->count; k++) {
        sizes[k] = (uint16_t)w->length[k];
        memcpy(octets + total, w->item[k], w->length[k]);
        total += w->length[k];
    }
    result[BTPU_BURST_FRAME] = result[BTPU_BURST_PLACE] = 0;
    do {
        must(btpu_receive_burst(state, pool, sizeof pool, sizes, w->count, octets, total, result[BTPU_BURST_FRAME],
                                result[BTPU_BURST_PLACE], burst_output, BURST_OUTPUT, lengths, numbers, places, reasons, result));
    } while (result[BTPU_BURST_FRAME] < w->count);
    return w->count;
}

static uint64_t run(const struct work *w)
{
    switch (w->kind) {
    case RECEIVE: return receive_all(w);
    case PLACE: return place_all(w);
    case PLAY: return play_all(w);
    case BURST: return burst_all(w);
    default: stop("no such kind of workload");
    }
    return 0;
}

static struct work read_work(void)
{
    struct work w = {number(), number(), number(), NULL, NULL};
    w.length = malloc(w.count * sizeof *w.length);
    w.item = malloc(w.count * sizeof *w.item);
    if (w.length == NULL || w.item == NULL)
        stop("no memory");
    for (uint32_t k = 0; k < w.count; k++) {
        w.length[k] = number();
        w.item[k] = malloc(w.length[k]);
        if (w.kind == BURST && (k >= BTPU_BURST_FRAMES || w.length[k] > BTPU_MAX_FRAME))
            stop("more than a burst has room for");
        if (w.item[k] == NULL || fread(w.item[k], 1, w.length[k], in) != w.length[k])
            stop("workloads cut short");
    }
    return w;
}

int main(int count, char **arguments)
{
    if (count != 3 || (in = fopen(arguments[1], "rb")) == NULL)
        stop("usage: bench FILE MILLISECONDS");
    double least = atof(arguments[2]) * 1e6;
    for (uint32_t left = number(); left > 0; left--) {
        struct work w = read_work();
        uint64_t calls = 0;
        double from = now(), to;
        do {
            for (int k = 0; k < 4; k++)
                calls += run(&w);
            to = now();
        } while (to - from < least);
        printf("%.2f\n", (to - from) / calls);
    }
    return 0;
}
