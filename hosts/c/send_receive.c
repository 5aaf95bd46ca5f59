/*
 * Sends a bundle of 3,000 octets through frames of 512 and receives it again. In the root of the
 * repository, or with an installed library:
 *
 *     cc -std=c99 -I include -o send_receive hosts/c/send_receive.c target/staticlib/libboard.a
 *     cc -std=c99 -o send_receive send_receive.c $(pkg-config --cflags --libs btpu)
 *
 * This is draft 02. For draft 00 call btpu_receiver_start_00 and btpu_sender_start_00 instead of
 * the starts here; nothing else differs.
 */
#include <stdio.h>
#include <string.h>

#include "btpu.h"

#define BUNDLE_LENGTH 3000
#define FRAME_SIZE 512
#define FIRST_NUMBER 7
/* 4, 8 or 16: the smallest suffices, since one transfer alone is under way */
#define WINDOW 4

struct link_end {
    uint8_t image[BTPU_RECEIVER_IMAGE];
    uint8_t pool[BTPU_POOL(WINDOW)];
    uint8_t output[BTPU_MIN_OUTPUT];
    unsigned frames;
    unsigned bundles;
};

static uint8_t bundle[BUNDLE_LENGTH];
static struct link_end end;

static int fail(const char *what, uint32_t returned)
{
    fprintf(stderr, "%s: refusal %lu, place %lu\n", what, (unsigned long)BTPU_REFUSAL(returned),
            (unsigned long)BTPU_REFUSAL_PLACE(returned));
    return 1;
}

/* Takes a frame to its end and compares each bundle with the one sent. */
static int take_frame(const uint8_t *frame)
{
    uint64_t result[BTPU_RESULT] = {0, 0, 0, 0};
    uint64_t place = 0;

    end.frames++;
    for (;;) {
        uint32_t returned = btpu_receive(end.image, end.pool, sizeof end.pool, frame, FRAME_SIZE,
                                         place, end.output, sizeof end.output, result);
        if (returned != 0)
            return fail("btpu_receive", returned);
        if (result[BTPU_ANSWER] == BTPU_FINISHED)
            return 0;
        if (result[BTPU_LENGTH] != BUNDLE_LENGTH || result[BTPU_NUMBER] != FIRST_NUMBER ||
            memcmp(end.output, bundle, BUNDLE_LENGTH) != 0) {
            fprintf(stderr, "another bundle was received\n");
            return 1;
        }
        end.bundles++;
        place = result[BTPU_PLACE];
    }
}

/* Sends the bundle, and hands each frame to the receiving end. */
static int send_bundle(uint8_t sender[BTPU_SENDER_IMAGE], uint8_t frame[FRAME_SIZE])
{
    uint64_t result[BTPU_RESULT] = {0, 0, 0, 0};
    uint32_t returned;

    do {
        returned = btpu_place(sender, bundle, sizeof bundle, frame, FRAME_SIZE, result);
        if (returned != 0)
            return fail("btpu_place", returned);
        if (result[BTPU_ANSWER] != BTPU_PLACED && take_frame(frame) != 0)
            return 1;
    } while (result[BTPU_ANSWER] == BTPU_READY || sender[BTPU_SENDER_BEGUN] != 0);

    returned = btpu_flush(sender, frame, FRAME_SIZE, result);
    if (returned != 0)
        return fail("btpu_flush", returned);
    return result[BTPU_ANSWER] == BTPU_READY ? take_frame(frame) : 0;
}

int main(void)
{
    uint8_t sender[BTPU_SENDER_IMAGE];
    uint8_t frame[FRAME_SIZE];
    uint32_t returned;
    size_t i;

    for (i = 0; i < BUNDLE_LENGTH; i++)
        bundle[i] = (uint8_t)(37 * i + i / 256);
    memset(frame, 0, sizeof frame);

    returned = btpu_receiver_start_window(end.image, WINDOW);
    if (returned != 0)
        return fail("btpu_receiver_start_window", returned);
    returned = btpu_sender_start(sender, FRAME_SIZE, FIRST_NUMBER);
    if (returned != 0)
        return fail("btpu_sender_start", returned);
    if (send_bundle(sender, frame) != 0)
        return 1;

    if (end.bundles != 1) {
        fprintf(stderr, "%u bundles were received\n", end.bundles);
        return 1;
    }
    printf("bundle of %d octets received through %u frames of %d octets\n", BUNDLE_LENGTH,
           end.frames, FRAME_SIZE);
    return 0;
}
