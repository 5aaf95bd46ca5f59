/*
 * Plays frames of a draft, one a line in hex, through the native library, with a receiver of a window: a line for each bundle, each refused
 * frame, and the state's image at the end, or after each frame.
 *
 *     play 00|02 4|8|16 [each]
 *
 *     bundle FRAME NUMBER|- OCTETS
 *     refused FRAME REFUSAL PLACE|-
 *     image OCTETS
 */
#include <stdint.h>
#include <stdio.h>
#include <stdlib.h>
#include <string.h>
#include "btpu.h"

static uint8_t state[BTPU_RECEIVER_IMAGE], pool[BTPU_POOL(BTPU_MAX_WINDOW)], frame[BTPU_MAX_FRAME + 1], output[BTPU_MIN_OUTPUT];

static void hex(const uint8_t *octets, uint64_t length)
{
    while (length--) printf("%02x", *octets++);
    putchar('\n');
}

static void refused(unsigned k, uint32_t returned)
{
    uint32_t number = BTPU_REFUSAL(returned);
    if (number >= 4 && number <= 8) printf("refused %u %u %u\n", k, number, BTPU_REFUSAL_PLACE(returned));
    else printf("refused %u %u -\n", k, number);
}

static void take(unsigned k, uint64_t length)
{
    uint64_t result[BTPU_RESULT] = {0};
    for (uint64_t place = 0;; place = result[BTPU_PLACE]) {
        uint64_t pool_len = BTPU_POOL(state[BTPU_RECEIVER_WINDOW]);
        uint32_t returned = btpu_receive(state, pool, pool_len, frame, length, place, output, sizeof output, result);
        if (returned) { refused(k, returned); return; }
        if (result[BTPU_ANSWER] == BTPU_FINISHED) return;
        if (result[BTPU_NUMBER] == BTPU_NO_NUMBER) printf("bundle %u - ", k);
        else printf("bundle %u %llu ", k, (unsigned long long)result[BTPU_NUMBER]);
        hex(output, result[BTPU_LENGTH]);
    }
}

static void image(void)
{
    printf("image ");
    hex(state, sizeof state);
}

static uint32_t start(const char *draft, uint32_t window)
{
    if (strcmp(draft, "00") == 0) return btpu_receiver_start_00(state, window);
    return strcmp(draft, "02") == 0 ? btpu_receiver_start_window(state, window) : 2;
}

int main(int count, char **arguments)
{
    static char line[2 * sizeof frame + 3];
    int each = count == 4 && strcmp(arguments[3], "each") == 0;
    if ((count != 3 && !each) || start(arguments[1], (uint32_t)strtoul(arguments[2], NULL, 10)) != 0) return 2;
    for (unsigned k = 0; fgets(line, sizeof line, stdin); k++) {
        size_t length = strcspn(line, "\n") / 2;
        for (size_t i = 0; i < length; i++) {
            unsigned octet;
            if (sscanf(line + 2 * i, "%2x", &octet) != 1) return 2;
            frame[i] = (uint8_t)octet;
        }
        take(k, length);
        if (each) image();
    }
    if (!each) image();
    return 0;
}
