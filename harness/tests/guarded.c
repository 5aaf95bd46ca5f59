/*
 * Generated calls of every function on memory between guard pages, with states of both drafts and
 * of every window.
 *
 * What is lent ends at a guard page or starts behind one; what is const is read only during the
 * call. After every call all that must have stayed is compared. For 60 seconds with seed 7, from
 * the root of the repository:
 *
 *     cc -std=c99 -Wall -Wextra -Werror -pedantic -O1 -I include -o target/guarded \
 *         harness/tests/guarded.c target/staticlib/libboard.a
 *     target/guarded 60 7
 *
 * The same seed makes the same calls; the time decides only how many.
 */
#define _DEFAULT_SOURCE
#include "guarded.h"

#define LONGEST_FRAME (BTPU_MAX_FRAME + 1000)
#define LEAST_ROUNDS 6000 /* also where the time is up before */
#define NEVER SIZE_MAX

/* Bundles one behind another, as a playback gives them. */
struct bundles {
    size_t count, octets;
    uint16_t lengths[BTPU_PLAYED_BUNDLES];
    uint8_t joined[BTPU_RECORDED_OCTETS];
};

static uint8_t receiver[BTPU_RECEIVER_IMAGE];
static uint8_t sender[BTPU_SENDER_IMAGE];
static uint8_t sender_frame[PAGE];
static struct bundles placed, arrived;

/* Frames one behind another, as they are recorded; the lists have room for more than is allowed. */
static uint16_t sizes[BTPU_RECORDED_FRAMES + 8];
static uint8_t octets[BTPU_RECORDED_OCTETS + 8];
static size_t frames, octets_len;

static uint8_t recording[17 * PAGE];
static size_t recording_len;

static enum draft any_draft(void)
{
    return once_in(2) ? DRAFT_00 : DRAFT_02;
}

static uint32_t any_window(void)
{
    return PICK(windows);
}

/* Of frames by hand for the receiver: mostly its own. */
static enum draft draft_of_frames(void)
{
    return (receiver[BTPU_RECEIVER_DRAFT] == DRAFT_00) != once_in(8) ? DRAFT_00 : DRAFT_02;
}

static void add_bundle(struct bundles *bundles, const uint8_t *bundle, size_t length)
{
    expect(bundles->count < BTPU_PLAYED_BUNDLES &&
               bundles->octets + length <= sizeof bundles->joined,
           "more than was sent");
    bundles->lengths[bundles->count++] = (uint16_t)length;
    memcpy(bundles->joined + bundles->octets, bundle, length);
    bundles->octets += length;
}

static void expect_bundles(const struct bundles *expected, const uint16_t *lengths, size_t count,
                           const uint8_t *joined, size_t length)
{
    expect(count == expected->count && length == expected->octets &&
               memcmp(lengths, expected->lengths, count * sizeof lengths[0]) == 0 &&
               memcmp(joined, expected->joined, length) == 0,
           "other bundles than were placed or taken");
}

static void add_frame(const uint8_t *frame, size_t length)
{
    sizes[frames++] = (uint16_t)length;
    memcpy(octets + octets_len, frame, length);
    octets_len += length;
}

/* ---- receiver */

static int receiver_is_sound(const uint8_t *image)
{
    lend_read_only(STATE, image, BTPU_RECEIVER_IMAGE);
    enter(RECEIVER_CHECK);
    return leave(btpu_receiver_check(areas[STATE].at)) == 0;
}

/* A start of a draft with what may be a window; the answer is the refusal's number. */
static uint32_t call_start(enum draft draft, uint32_t window)
{
    int plain = draft == DRAFT_02 && window == BTPU_PLAIN_WINDOW && once_in(2);
    lend_any(STATE, BTPU_RECEIVER_IMAGE);
    uint8_t *state = areas[STATE].at;
    enter(draft == DRAFT_00 ? RECEIVER_START_00 : plain ? RECEIVER_START : RECEIVER_START_WINDOW);
    if (draft == DRAFT_00)
        return leave(btpu_receiver_start_00(state, window));
    return leave(plain ? btpu_receiver_start(state) : btpu_receiver_start_window(state, window));
}

static void start_receiver(enum draft draft, uint32_t window)
{
    expect(call_start(draft, window) == 0, "refused");
    memcpy(receiver, areas[STATE].at, sizeof receiver);
    keep_pool(window);
    expect(receiver[BTPU_RECEIVER_DRAFT] == draft, "draft of a fresh state");
    expect(receiver[BTPU_RECEIVER_WINDOW] == window, "window of a fresh state");
    expect(receiver_is_sound(receiver), "a fresh state is not sound");
}

/* The length of the pool that an image asks for. */
static size_t pool_of(const uint8_t *image)
{
    return BTPU_POOL(image[BTPU_RECEIVER_WINDOW]);
}

static void expect_received(uint64_t place)
{
    if (result(BTPU_ANSWER) == BTPU_FINISHED) {
        expect_stays(OUTPUT, 0);
        expect_stays(RESULT, sizeof(uint64_t));
        return;
    }
    expect(result(BTPU_ANSWER) == BTPU_BUNDLE, "no such answer");
    expect(result(BTPU_LENGTH) <= BTPU_MAX_BUNDLE, "length of a bundle");
    expect(result(BTPU_PLACE) > place && result(BTPU_PLACE) <= areas[FRAME].length, "next place");
    expect(result(BTPU_NUMBER) <= BTPU_NO_NUMBER, "number of a bundle");
    expect_stays(OUTPUT, (size_t)result(BTPU_LENGTH));
}

/* A receiving call; the answer is the refusal's number. */
static uint32_t receive(uint8_t *image, int sound, const uint8_t *frame, size_t length,
                        uint64_t place)
{
    static const size_t outputs[] = {0, 0, 1, 4095, 4097, 6000};
    struct area *pool = lend_pool(20), *output = &areas[OUTPUT];
    lend(STATE, image, BTPU_RECEIVER_IMAGE);
    lend_read_only(FRAME, frame, length);
    lend_any(OUTPUT, once_in(10) ? PICK(outputs) : BTPU_MIN_OUTPUT);
    uint64_t *to = lend_result();
    enter(RECEIVE);
    uint32_t number = leave(btpu_receive(areas[STATE].at, pool->at, pool->length, areas[FRAME].at,
                                         length, place, output->at, output->length, to));
    int room = output->length >= BTPU_MIN_OUTPUT;
    int allowed = length != 0 && length <= BTPU_MAX_FRAME;
    uint32_t first = !sound ? 1 : !room || pool->length != pool_of(image) ? 2 : !allowed ? 3 : 0;
    expect(first != 0 ? number == first : number == 0 || number > 3, "another refusal comes first");
    if (number == BTPU_REFUSED_LENT && room)
        count_pool(image[BTPU_RECEIVER_WINDOW], pool->length);
    if (number != 0)
        return number;
    expect_received(place);
    memcpy(pool->before, pool->start, pool->room);
    memcpy(image, areas[STATE].at, BTPU_RECEIVER_IMAGE);
    expect(receiver_is_sound(image), "the state left is not sound");
    return 0;
}

/* What stands before a bad message is well formed; a call from its end on treats nothing. */
static void expect_start_of_message(const uint8_t *frame, size_t place)
{
    uint32_t number = place == 0 ? 0 : receive(receiver, 1, frame, place, place);
    expect(number == 0 || number == BTPU_REFUSED_LENT, "the place is no start of a message");
}

/* Takes a frame to its end; bundles go to a list, if there is one. A call with too little memory
   has no effect and is made again. */
static void take(const uint8_t *frame, size_t length, struct bundles *list)
{
    uint64_t place = 0;
    for (;;) {
        uint32_t number = receive(receiver, 1, frame, length, place);
        if (number == BTPU_REFUSED_LENT)
            continue;
        if (number != 0) {
            expect_start_of_message(frame, refused_at);
            return;
        }
        if (result(BTPU_ANSWER) == BTPU_FINISHED)
            return;
        if (list != NULL)
            add_bundle(list, areas[OUTPUT].at, (size_t)result(BTPU_LENGTH));
        place = result(BTPU_PLACE);
    }
}

/* ---- bursts */

/* Frames one behind another. */
struct list {
    const uint16_t *sizes;
    size_t count;
    const uint8_t *octets;
    size_t length;
};

static uint32_t refusal_of_burst(struct list list, int sound, int pool_fits, size_t room)
{
    size_t sum = 0;
    if (!sound)
        return BTPU_REFUSED_STATE;
    if (!pool_fits || room < BTPU_MIN_OUTPUT)
        return BTPU_REFUSED_LENT;
    if (list.count > BTPU_BURST_FRAMES)
        return BTPU_REFUSED_FRAME_LENGTH;
    for (size_t k = 0; k < list.count; k++)
        sum += list.sizes[k];
    return sum != list.length ? BTPU_REFUSED_OCTET_COUNT : 0;
}

/* What a burst wrote, in lengths, numbers, places and reasons; all behind it has stayed. */
static void expect_handed_out(void)
{
    const uint16_t *lengths = LIST(uint16_t, LENGTHS);
    const uint64_t *numbers = LIST(uint64_t, BUNDLE_NUMBERS);
    const uint32_t *places = LIST(uint32_t, PLACES), *reasons = LIST(uint32_t, REASONS);
    size_t count = (size_t)result(BTPU_BURST_COUNT), sum = 0;
    size_t refused = (size_t)result(BTPU_BURST_REFUSED);
    expect_stays(LENGTHS, count * sizeof lengths[0]);
    expect_stays(BUNDLE_NUMBERS, count * sizeof numbers[0]);
    expect_stays(PLACES, refused * sizeof places[0]);
    expect_stays(REASONS, refused * sizeof reasons[0]);
    for (size_t k = 0; k < count; k++) {
        expect(numbers[k] <= BTPU_NO_NUMBER, "number of a bundle");
        sum += lengths[k];
    }
    expect(sum == result(BTPU_BURST_OCTETS), "octets of all bundles");
    expect_stays(LONG_OUTPUT, sum);
    for (size_t k = 0; k < refused; k++)
        expect((k == 0 || places[k] > places[k - 1]) && reasons[k] >= 3 && reasons[k] <= 8 &&
                   reasons[k] != BTPU_REFUSED_FLAG &&
                   (draft_now == DRAFT_02 || reasons[k] != BTPU_REFUSED_HINTS),
               "note of a refused frame");
}

/* Where a burst that started so goes on: behind the start, and before the end only if it is full. */
static void expect_goes_on(struct list list, size_t room, uint64_t frame, uint64_t place)
{
    uint64_t next = result(BTPU_BURST_FRAME), at = result(BTPU_BURST_PLACE);
    int full = result(BTPU_BURST_COUNT) == BTPU_BURST_BUNDLES ||
               room - result(BTPU_BURST_OCTETS) < BTPU_MIN_OUTPUT;
    for (size_t k = 0; k < result(BTPU_BURST_REFUSED); k++)
        expect(LIST(uint32_t, PLACES)[k] >= frame && LIST(uint32_t, PLACES)[k] < next,
               "place of a refused frame");
    if (next == list.count)
        expect(at == 0, "place behind all frames");
    else
        /* Before a frame of 0 octets, which is refused, the place is 0. */
        expect(next < list.count && (at == 0 || at < list.sizes[next]) && full &&
                   (next > frame || (next == frame && at > place)),
               "where the burst goes on");
}

static uint64_t *lend_burst(struct list list)
{
    static const size_t wrong[] = {0, 0, 1, 4095};
    static const size_t outputs[] = {4096, 4096, 4097, 8192, 20000, 17 * PAGE};
    lend_read_only(SIZES, list.sizes, list.count * sizeof list.sizes[0]);
    lend_read_only(OCTETS, list.octets, list.length);
    lend_any(LONG_OUTPUT, once_in(20) ? PICK(wrong) : PICK(outputs));
    lend_any(LENGTHS, BTPU_BURST_BUNDLES * sizeof(uint16_t));
    lend_any(BUNDLE_NUMBERS, BTPU_BURST_BUNDLES * sizeof(uint64_t));
    lend_any(PLACES, BTPU_BURST_FRAMES * sizeof(uint32_t));
    lend_any(REASONS, BTPU_BURST_FRAMES * sizeof(uint32_t));
    lend_any(RESULT, BTPU_BURST_RESULT * sizeof(uint64_t));
    return LIST(uint64_t, RESULT);
}

/* A burst from this frame and place on; the answer is the refusal's number. */
static uint32_t burst(uint8_t *image, int sound, struct list list, uint64_t frame, uint64_t place)
{
    struct area *pool = lend_pool(20), *output = &areas[LONG_OUTPUT];
    lend(STATE, image, BTPU_RECEIVER_IMAGE);
    uint64_t *to = lend_burst(list);
    enter(RECEIVE_BURST);
    uint32_t number = leave(btpu_receive_burst(
        areas[STATE].at, pool->at, pool->length, LIST(uint16_t, SIZES), list.count,
        areas[OCTETS].at, list.length, frame, place, output->at, output->length,
        LIST(uint16_t, LENGTHS), LIST(uint64_t, BUNDLE_NUMBERS), LIST(uint32_t, PLACES),
        LIST(uint32_t, REASONS), to));
    int pool_fits = pool->length == pool_of(image);
    uint32_t first = refusal_of_burst(list, sound, pool_fits, output->length);
    int may_be_bad = first == 0 && (frame != 0 || place != 0);
    expect(number == first || (may_be_bad && number == BTPU_REFUSED_PLACE), "another refusal");
    expect(frame < list.count || number != 0 || (frame == list.count && place == 0),
           "a start behind all frames");
    if (number == BTPU_REFUSED_LENT && output->length >= BTPU_MIN_OUTPUT)
        count_pool(image[BTPU_RECEIVER_WINDOW], pool->length);
    if (number != 0)
        return number;
    expect_handed_out();
    expect_goes_on(list, output->length, frame, place);
    memcpy(pool->before, pool->start, pool->room);
    memcpy(image, areas[STATE].at, BTPU_RECEIVER_IMAGE);
    expect(receiver_is_sound(image), "the state left is not sound");
    return 0;
}

/* Takes up to 64 frames to their end; bundles go to a list of them, if there is one. A call with too
   little memory has no effect and is made again. */
static void take_burst(struct list list, struct bundles *bundles)
{
    uint64_t frame = 0, place = 0;
    while (frame < list.count) {
        uint32_t number = burst(receiver, 1, list, frame, place);
        expect(number == 0 || number == BTPU_REFUSED_LENT, "refused");
        if (number != 0)
            continue;
        const uint8_t *from = areas[LONG_OUTPUT].at;
        for (size_t k = 0; bundles != NULL && k < result(BTPU_BURST_COUNT); k++) {
            add_bundle(bundles, from, LIST(uint16_t, LENGTHS)[k]);
            from += LIST(uint16_t, LENGTHS)[k];
        }
        frame = result(BTPU_BURST_FRAME);
        place = result(BTPU_BURST_PLACE);
    }
}

/* Takes all frames that were added, by bursts. */
static void take_frames(struct bundles *bundles)
{
    for (size_t k = 0, at = 0; k < frames;) {
        struct list list = {sizes + k, 0, octets + at, 0};
        size_t most = within(1, BTPU_BURST_FRAMES);
        for (; list.count < most && k < frames; k++) {
            list.count++;
            list.length += sizes[k];
        }
        at += list.length;
        take_burst(list, bundles);
    }
}

/* ---- sender */

static int sender_is_sound(const uint8_t *image)
{
    lend_read_only(STATE, image, BTPU_SENDER_IMAGE);
    enter(SENDER_CHECK);
    return leave(btpu_sender_check(areas[STATE].at)) == 0;
}

static void start_sender(enum draft draft, uint64_t frame_size, uint32_t first_number)
{
    lend_any(STATE, BTPU_SENDER_IMAGE);
    enter(draft == DRAFT_00 ? SENDER_START_00 : SENDER_START);
    uint32_t number =
        leave(draft == DRAFT_00
                  ? btpu_sender_start_00(areas[STATE].at, frame_size, first_number)
                  : btpu_sender_start(areas[STATE].at, frame_size, first_number));
    int allowed = frame_size >= BTPU_MIN_FRAME_SIZE && frame_size <= BTPU_MAX_FRAME_SIZE;
    expect(number == (allowed ? 0 : BTPU_REFUSED_FRAME_SIZE), "frame size");
    if (number != 0)
        return;
    memcpy(sender, areas[STATE].at, sizeof sender);
    expect(sender[BTPU_SENDER_DRAFT] == draft, "draft of a fresh state");
    expect(sender_is_sound(sender), "a fresh state is not sound");
}

static uint32_t refusal_of_sending(enum function function, const uint8_t *image, int sound,
                                   size_t length, size_t frame_length)
{
    if (!sound)
        return BTPU_REFUSED_STATE;
    if (frame_length != number16(image))
        return BTPU_REFUSED_FRAME_BUFFER;
    int begun = image[BTPU_SENDER_BEGUN];
    if (function == CANCEL && !begun)
        return BTPU_REFUSED_NOT_BEGUN;
    if (function != PLACE)
        return 0;
    if (length == 0 || length > BTPU_MAX_BUNDLE)
        return BTPU_REFUSED_BUNDLE;
    return begun && length != number16(image + 16) ? BTPU_REFUSED_OTHER_LENGTH : 0;
}

static uint32_t call_sender(enum function function, size_t length, size_t frame_length)
{
    uint8_t *state = areas[STATE].at, *frame = areas[FRAME_BUFFER].at;
    uint64_t *to = lend_result();
    enter(function);
    if (function == PLACE)
        return leave(btpu_place(state, areas[BUNDLE].at, length, frame, frame_length, to));
    if (function == CANCEL)
        return leave(btpu_cancel(state, frame, frame_length, to));
    return leave(btpu_flush(state, frame, frame_length, to));
}

/* The end of what a sending call left in the frame buffer: a frame that is ready is full. */
static size_t written_up_to(size_t frame_length)
{
    uint64_t answer = result(BTPU_ANSWER);
    int ready = answer == BTPU_PLACED_AND_READY || answer == BTPU_READY;
    return ready ? frame_length : number16(areas[STATE].at + 2);
}

/* A sending call; the answer is the refusal's number. */
static uint32_t send(enum function function, uint8_t *image, int sound, const uint8_t *bundle,
                     size_t length, size_t frame_length)
{
    size_t fill = number16(image + 2);
    lend(STATE, image, BTPU_SENDER_IMAGE);
    if (function == PLACE)
        lend_read_only(BUNDLE, bundle, length);
    lend(FRAME_BUFFER, sender_frame, frame_length);
    uint32_t number = call_sender(function, length, frame_length);
    expect(number == refusal_of_sending(function, image, sound, length, frame_length),
           "another refusal");
    if (number != 0)
        return number;
    expect(result(BTPU_ANSWER) <= BTPU_NOTHING, "no such answer");
    expect_stays(RESULT, sizeof(uint64_t));
    expect(memcmp(areas[FRAME_BUFFER].at, sender_frame, fill) == 0, "messages before changed");
    expect_stays(FRAME_BUFFER, written_up_to(frame_length));
    memcpy(sender_frame, areas[FRAME_BUFFER].at, frame_length);
    memcpy(image, areas[STATE].at, BTPU_SENDER_IMAGE);
    expect(sender_is_sound(image), "the state left is not sound");
    return 0;
}

/* A sending call that is carried out, after some that are refused; a frame that is ready is kept. */
static uint64_t sent(enum function function, const uint8_t *bundle, size_t length)
{
    static const size_t wrong_frames[] = {0, 0, 1, 127, 2049, PAGE};
    static const size_t wrong_bundles[] = {0, 0, 1, 3000, 4097, 2 * PAGE};
    size_t size = number16(sender);
    if (once_in(8))
        send(function, sender, 1, bundle, length, PICK(wrong_frames));
    if (once_in(8) && !sender[BTPU_SENDER_BEGUN])
        send(CANCEL, sender, 1, NULL, 0, size);
    size_t other = PICK(wrong_bundles);
    if (once_in(8) && (sender[BTPU_SENDER_BEGUN] ? other != length : other - 1 >= BTPU_MAX_BUNDLE))
        send(PLACE, sender, 1, any_octets(other), other, size);
    expect(send(function, sender, 1, bundle, length, size) == 0, "refused");
    if (result(BTPU_ANSWER) == BTPU_PLACED_AND_READY || result(BTPU_ANSWER) == BTPU_READY)
        add_frame(sender_frame, size);
    return result(BTPU_ANSWER);
}

/* Places a bundle to its end, or cancels it on the way. */
static void place_bundle(const uint8_t *bundle, size_t length)
{
    while (sent(PLACE, bundle, length) == BTPU_READY || sender[BTPU_SENDER_BEGUN]) {
        if (sender[BTPU_SENDER_BEGUN] && once_in(30)) {
            expect(sent(CANCEL, NULL, 0) == BTPU_PLACED, "answer of a cancel");
            return;
        }
    }
    add_bundle(&placed, bundle, length);
}

/* ---- recordings */

static uint32_t refusal_of_record(const uint16_t *list, size_t count, size_t length, size_t room)
{
    size_t sum = 0;
    if (count > BTPU_RECORDED_FRAMES || length > BTPU_RECORDED_OCTETS)
        return BTPU_REFUSED_OVER_LIMIT;
    for (size_t k = 0; k < count; k++) {
        if (list[k] == 0 || list[k] > BTPU_MAX_FRAME)
            return BTPU_REFUSED_RECORDED_LENGTH;
        sum += list[k];
    }
    if (sum != length)
        return BTPU_REFUSED_OCTET_COUNT;
    return room < 8 + 2 * count + length ? BTPU_REFUSED_SHORT_OUTPUT : 0;
}

/* Records frames into an output of this length; what is written becomes the recording. */
static uint32_t record(size_t count, size_t length, size_t room)
{
    lend_read_only(SIZES, sizes, count * sizeof sizes[0]);
    lend_read_only(OCTETS, octets, length);
    lend_any(LONG_OUTPUT, room);
    uint64_t *to = lend_result();
    enter(RECORD);
    uint32_t number = leave(btpu_record(LIST(uint16_t, SIZES), count, areas[OCTETS].at, length,
                                        areas[LONG_OUTPUT].at, room, to));
    expect(number == refusal_of_record(sizes, count, length, room), "another refusal");
    if (number != 0)
        return number;
    expect(result(BTPU_WRITTEN) == 8 + 2 * count + length, "length of a recording");
    expect_stays(RESULT, sizeof(uint64_t));
    recording_len = (size_t)result(BTPU_WRITTEN);
    expect_stays(LONG_OUTPUT, recording_len);
    memcpy(recording, areas[LONG_OUTPUT].at, recording_len);
    return 0;
}

static uint32_t open_recording(void)
{
    lend_read_only(RECORDING, recording, recording_len);
    lend_any(SIZES, BTPU_RECORDED_FRAMES * sizeof sizes[0]);
    uint16_t *opened = LIST(uint16_t, SIZES);
    uint64_t *to = lend_result();
    enter(RECORDING_OPEN);
    uint32_t number = leave(btpu_recording_open(areas[RECORDING].at, recording_len, opened, to));
    if (number != 0)
        return number;
    size_t count = (size_t)result(BTPU_OPENED_FRAMES), sum = 0;
    expect(count <= BTPU_RECORDED_FRAMES, "number of frames");
    for (size_t k = 0; k < BTPU_RECORDED_FRAMES; k++) {
        expect((opened[k] == 0) == (k >= count), "sizes, and zeros behind them");
        sum += opened[k];
    }
    expect(result(BTPU_OPENED_OCTETS) == sum && result(BTPU_OPENED_START) == 8 + 2 * count &&
               recording_len == 8 + 2 * count + sum,
           "octets of a recording");
    expect_stays(RESULT, 3 * sizeof(uint64_t));
    return 0;
}

/* What a playback wrote, in lengths, places and reasons; all behind it has stayed. */
static void expect_played(uint64_t limit)
{
    const uint16_t *lengths = LIST(uint16_t, LENGTHS);
    const uint32_t *places = LIST(uint32_t, PLACES), *reasons = LIST(uint32_t, REASONS);
    size_t count = (size_t)result(BTPU_PLAYED_COUNT), sum = 0;
    size_t refused = (size_t)result(BTPU_PLAYED_REFUSED);
    expect(result(BTPU_PLAYED_MESSAGES) <= limit, "more messages than the limit");
    expect_stays(LENGTHS, count * sizeof lengths[0]);
    expect_stays(PLACES, refused * sizeof places[0]);
    expect_stays(REASONS, refused * sizeof reasons[0]);
    for (size_t k = 0; k < count; k++)
        sum += lengths[k];
    expect(sum == result(BTPU_PLAYED_OCTETS), "octets of all bundles");
    expect_stays(LONG_OUTPUT, sum);
    for (size_t k = 0; k < refused; k++)
        expect((k == 0 || places[k] > places[k - 1]) && places[k] < BTPU_RECORDED_FRAMES &&
                   (reasons[k] == 4 || (reasons[k] >= 6 && reasons[k] <= 8)),
               "note of a refused frame");
}

/* So many entries as are asked for or, once in so many times, others. */
static size_t entries(size_t asked, size_t wrong_once_in)
{
    if (!once_in(wrong_once_in))
        return asked;
    return once_in(2) ? 0 : once_in(2) ? asked - 1 : asked + within(1, 64);
}

/* Plays the recording, which is refused like this where it is opened. */
static uint32_t play(uint64_t limit, uint32_t opened, size_t wrong_once_in)
{
    size_t room = entries(BTPU_RECORDED_OCTETS, wrong_once_in);
    size_t lengths_len = entries(BTPU_PLAYED_BUNDLES, wrong_once_in);
    size_t places_len = entries(BTPU_RECORDED_FRAMES, wrong_once_in);
    size_t reasons_len = entries(BTPU_RECORDED_FRAMES, wrong_once_in);
    struct area *pool = lend_play_pool(wrong_once_in);
    lend_read_only(RECORDING, recording, recording_len);
    lend_any(LONG_OUTPUT, room);
    lend_any(LENGTHS, lengths_len * sizeof(uint16_t));
    lend_any(PLACES, places_len * sizeof(uint32_t));
    lend_any(REASONS, reasons_len * sizeof(uint32_t));
    uint64_t *to = lend_result();
    enter(PLAY);
    uint32_t number = leave(btpu_play(areas[RECORDING].at, recording_len, limit, pool->at,
                                      pool->length, areas[LONG_OUTPUT].at, room,
                                      LIST(uint16_t, LENGTHS), lengths_len, LIST(uint32_t, PLACES),
                                      places_len, LIST(uint32_t, REASONS), reasons_len, to));
    int little = room < BTPU_RECORDED_OCTETS || lengths_len < BTPU_PLAYED_BUNDLES ||
                 places_len < BTPU_RECORDED_FRAMES || reasons_len < BTPU_RECORDED_FRAMES;
    int pool_fits = pool->length == BTPU_POOL(BTPU_PLAY_WINDOW);
    uint32_t first = opened != 0 ? opened : !pool_fits ? 2 : little ? 24 : 0;
    expect(number == first, "another refusal");
    if (number == BTPU_REFUSED_LENT)
        count_pool(BTPU_PLAY_WINDOW, pool->length);
    if (number != 0)
        return number;
    expect_played(limit);
    return 0;
}

/* ---- frames by hand */

/* A chain of hints; the last may say that another follows. */
static size_t put_hints(uint8_t *to, size_t room)
{
    size_t at = 0, more = below(4);
    while (at + 2 <= room) {
        size_t length = once_in(3) ? below(room - at - 1) : below(4);
        length = length > 255 ? 255 : length;
        to[at] = (uint8_t)((draw() & 0xfe) | (more != 0));
        to[at + 1] = (uint8_t)length;
        at += 2 + length;
        if (more == 0 || once_in(20))
            break;
        more--;
    }
    return at < room ? at : room;
}

/* A message of any type, mostly well formed in a draft; the answer is how many octets it takes. */
static size_t put_message(uint8_t *to, size_t room, uint32_t first_number, enum draft draft)
{
    static const uint8_t kinds[] = {1, 2, 2, 3, 3, 3, 4, 4, 4, 5};
    if (room < 24 || once_in(12)) {
        size_t zeros = room < 24 ? room : within(1, 6);
        memset(to, 0, zeros);
        return zeros;
    }
    uint8_t kind = once_in(8) ? (uint8_t)within(6, 255) : PICK(kinds);
    uint8_t hinted = once_in(draft == DRAFT_00 ? 60 : 3) ? 0x80 : 0;
    size_t data = once_in(4) ? below(room - 23) : below(8);
    size_t at = 4 + (hinted ? put_hints(to + 4, room - 4 - 8 - data) : 0);
    uint32_t index = once_in(12) ? (uint32_t)below(70) : (uint32_t)below(3);
    if (kind >= 3 && kind <= 5)
        put32(to + at, once_in(40) ? (uint32_t)draw() : first_number + (uint32_t)below(20));
    if (kind == 3 || kind == 4)
        put32(to + at + 4, once_in(60) ? (uint32_t)draw() : index);
    at += kind == 3 || kind == 4 ? 8 + data : kind == 5 ? 4 : data;
    size_t length = once_in(60) ? below(at + 20) : at - 4;
    to[0] = kind;
    to[1] = once_in(draft == DRAFT_00 ? 60 : 4) ? hinted | (draw() & 0x70) : hinted;
    to[2] = (uint8_t)(length >> 8);
    to[3] = (uint8_t)length;
    return at;
}

static void damage(uint8_t *to, size_t length)
{
    static const uint8_t values[] = {0, 1, 2, 4, 8, 16, 63, 64, 128, 255};
    for (size_t times = within(1, 3); times > 0 && length > 0; times--) {
        size_t at = below(once_in(2) && length > 16 ? 16 : length);
        to[at] = once_in(2) ? PICK(values) : (uint8_t)draw();
    }
}

/* A frame of messages of a draft, damaged or of any octets; the answer is its length. */
static size_t make_frame(uint8_t *to, uint32_t first_number, enum draft draft)
{
    static const size_t lengths[] = {0, 1, 2, 3, 2047, 2048, 2049, LONGEST_FRAME};
    size_t length = once_in(6) ? PICK(lengths) : once_in(3) ? within(1, 2048) : within(1, 200);
    memcpy(to, any_octets(LONGEST_FRAME), LONGEST_FRAME);
    if (once_in(10))
        return length;
    for (size_t at = 0; at < length;)
        at += put_message(to + at, length - at, first_number, draft);
    if (once_in(5))
        damage(to, length);
    return once_in(10) && length > 0 ? below(length) : length;
}

/* ---- rounds */

/* Places bundles to their end, or cancels them, in frames of this size; all frames are kept. */
static void send_bundles(enum draft draft, size_t size)
{
    frames = octets_len = placed.count = placed.octets = 0;
    start_sender(draft, size, once_in(2) ? (uint32_t)draw() : UINT32_MAX - (uint32_t)below(8));
    for (size_t n = within(1, 24); n > 0 && octets_len + 10240 <= BTPU_RECORDED_OCTETS; n--) {
        size_t length = once_in(2) ? within(1, 200) : once_in(4) ? 4096 : within(1, 4096);
        place_bundle(any_octets(length), length);
        if (once_in(6))
            sent(FLUSH, NULL, 0);
    }
    sent(FLUSH, NULL, 0);
}

/* All frames that were kept arrive at a fresh receiver, frame by frame. */
static void take_singly(enum draft draft, uint32_t window)
{
    arrived.count = arrived.octets = 0;
    start_receiver(draft, window);
    for (size_t k = 0, at = 0; k < frames; at += sizes[k++])
        take(octets + at, sizes[k], &arrived);
}

/* A playback hands out what a receiver of draft 02 and window 16 does, also of frames of draft 00. */
static void expect_played_as_taken(void)
{
    take_singly(DRAFT_02, BTPU_PLAY_WINDOW);
    expect(record(frames, octets_len, 8 + 2 * frames + octets_len) == 0, "refused");
    expect(open_recording() == 0 && result(BTPU_OPENED_FRAMES) == frames &&
               memcmp(areas[SIZES].at, sizes, frames * sizeof sizes[0]) == 0,
           "recorded frames");
    expect(play(UINT64_MAX, 0, NEVER) == 0, "refused");
    expect_bundles(&arrived, LIST(uint16_t, LENGTHS), (size_t)result(BTPU_PLAYED_COUNT),
                   areas[LONG_OUTPUT].at, (size_t)result(BTPU_PLAYED_OCTETS));
}

/* What is placed arrives, frame by frame and from a recording; then with losses and damage. */
static void round_of_link(void)
{
    static const size_t edges[] = {128, 129, 512, 2047, 2048};
    static uint8_t frame[BTPU_MAX_FRAME];
    size_t size = once_in(2) ? PICK(edges) : within(128, 2048);
    enum draft draft = any_draft();
    send_bundles(draft, size);
    take_singly(draft, any_window());
    expect_bundles(&placed, arrived.lengths, arrived.count, arrived.joined, arrived.octets);
    arrived.count = arrived.octets = 0;
    start_receiver(draft, any_window());
    take_frames(&arrived);
    expect_bundles(&placed, arrived.lengths, arrived.count, arrived.joined, arrived.octets);
    expect_played_as_taken();
    if (draft == DRAFT_02)
        expect_bundles(&placed, arrived.lengths, arrived.count, arrived.joined, arrived.octets);
    start_receiver(draft, any_window());
    for (size_t n = 0; n < frames; n++) {
        size_t k = below(frames);
        memcpy(frame, octets + k * size, size);
        if (once_in(8))
            damage(frame, size);
        take(frame, size, NULL);
    }
}

/* Frames by hand, from any place, on a receiver that is kept for some rounds. */
static void round_of_frames(void)
{
    static const uint64_t far[] = {2049, UINT64_C(1) << 32, UINT64_MAX};
    static uint8_t frame[LONGEST_FRAME];
    static uint32_t first_number;
    if (once_in(8)) {
        first_number = (uint32_t)draw();
        start_receiver(any_draft(), any_window());
    }
    for (size_t n = within(1, 12); n > 0; n--) {
        size_t length = make_frame(frame, first_number, draft_of_frames());
        if (once_in(4))
            receive(receiver, 1, frame, length, once_in(4) ? PICK(far) : below(length + 2));
        else
            take(frame, length, NULL);
    }
}

/* Frames by hand in bursts, also what is not allowed, from any frame and place. */
static void round_of_bursts(void)
{
    static const uint64_t far[] = {1, 2049, UINT64_C(1) << 32, UINT64_MAX};
    static const size_t counts[] = {0, 1, 12, 63, 64, 65, 66};
    static uint8_t frame[LONGEST_FRAME], image[BTPU_RECEIVER_IMAGE];
    frames = octets_len = 0;
    for (size_t n = once_in(2) ? PICK(counts) : below(12); n > 0; n--) {
        size_t length = make_frame(frame, 7, draft_of_frames());
        if (octets_len + length <= BTPU_RECORDED_OCTETS)
            add_frame(frame, length);
    }
    struct list list = {sizes, frames, octets, octets_len};
    uint64_t first = below(frames + 2);
    uint64_t place = first < frames ? below(sizes[first] + (size_t)2) : below(2);
    burst(receiver, 1, list, once_in(8) ? PICK(far) : first, once_in(8) ? PICK(far) : place);
    memcpy(image, receiver, sizeof image);
    damage(image, once_in(2) ? 12 : sizeof image);
    burst(image, receiver_is_sound(image), list, 0, 0);
    if (frames <= BTPU_BURST_FRAMES)
        take_burst(list, NULL);
    list.length = once_in(2) ? list.length + 1 : below(list.length + 1);
    burst(receiver, 1, list, 0, 0);
}

/* Images with damage: calls refuse them exactly where the checks do. */
static void round_of_images(void)
{
    static uint8_t image[BTPU_RECEIVER_IMAGE], frame[LONGEST_FRAME];
    memcpy(image, receiver, sizeof image);
    size_t from = once_in(2) ? 0 : 8 + 196 * below(16);
    damage(image + from, once_in(2) ? 12 : sizeof image - from);
    int sound = receiver_is_sound(image);
    size_t length = make_frame(frame, (uint32_t)draw(), draft_of_frames());
    receive(image, sound, frame, length, 0);

    static const enum function sending[] = {PLACE, CANCEL, FLUSH};
    uint8_t other[BTPU_SENDER_IMAGE];
    memcpy(other, sender, sizeof other);
    damage(other, sizeof other);
    sound = sender_is_sound(other);
    size_t size = sound ? number16(other) : below(PAGE);
    size_t bundle_length = other[BTPU_SENDER_BEGUN] == 1 ? number16(other + 16) : within(1, 3000);
    bundle_length = bundle_length > 2 * PAGE ? 2 * PAGE : bundle_length;
    const uint8_t *bundle = any_octets(bundle_length);
    send(PICK(sending), other, sound, bundle, bundle_length, size);
}

/* What is no window is refused, also what would be one if it were cut to fewer bits. */
static void refuse_windows(void)
{
    static const uint32_t none[] = {0, 1, 3, 5, 7, 9, 15, 17, 32, 255, 256 + 8, 65536 + 16,
                                    UINT32_C(8) << 24, UINT32_MAX};
    uint32_t window = once_in(8) ? (uint32_t)draw() : PICK(none);
    uint32_t number = call_start(any_draft(), window);
    expect((number == BTPU_REFUSED_WINDOW) == (place_of(window) == WINDOWS), "window of a start");
}

/* Windows and frame sizes that are refused; then a sender that may be in the middle of a bundle. */
static void round_of_starts(void)
{
    static const uint64_t outside[] = {0, 1, 127, 2049, 65536 + 512, (UINT64_C(1) << 32) + 512,
                                       UINT64_MAX};
    uint32_t first_number = (uint32_t)draw();
    size_t length = within(1, 4096);
    frames = octets_len = 0;
    refuse_windows();
    start_sender(any_draft(), PICK(outside), first_number);
    start_sender(any_draft(), within(128, 2048), first_number);
    for (size_t n = below(4); n > 0; n--)
        sent(PLACE, any_octets(length), length);
}

/* Frames by hand recorded, also what is not allowed; the recording damaged, opened and played. */
static void round_of_recordings(void)
{
    static const uint64_t limits[] = {0, 1, 5, UINT64_C(1) << 32, UINT64_MAX};
    static uint8_t frame[LONGEST_FRAME];
    frames = octets_len = 0;
    for (size_t n = below(once_in(10) ? BTPU_RECORDED_FRAMES : 12); n > 0; n--) {
        size_t length = make_frame(frame, 7, once_in(8) ? DRAFT_00 : DRAFT_02);
        if (length > 0 && length <= BTPU_MAX_FRAME && octets_len + length <= BTPU_RECORDED_OCTETS)
            add_frame(frame, length);
    }
    size_t whole = 8 + 2 * frames + octets_len;
    if (once_in(3))
        record(frames, octets_len, once_in(3) ? 0 : below(whole));
    if (once_in(6))
        record(frames, once_in(2) ? octets_len + 1 : BTPU_RECORDED_OCTETS + 1, whole + 1);
    if (once_in(6))
        record(BTPU_RECORDED_FRAMES + 1, octets_len, whole);
    record(frames, octets_len, whole + below(3));
    uint32_t opened = open_recording();
    expect(opened == 0, "a good recording is refused");
    if (once_in(2)) {
        damage(recording, recording_len);
        if (once_in(3))
            recording_len += within(1, 3);
        else if (once_in(2))
            recording_len = once_in(3) ? 0 : below(recording_len);
        opened = open_recording();
    }
    play(PICK(limits), opened, 8);
    if (frames > 0 && once_in(3)) {
        static const uint16_t wrong[] = {0, 2049, 65535};
        size_t at = below(frames);
        sizes[at] = PICK(wrong);
        record(frames, octets_len, whole);
    }
}

int main(int count, char **arguments)
{
    static void (*const rounds[])(void) = {round_of_link,   round_of_frames, round_of_frames,
                                           round_of_images, round_of_images, round_of_starts,
                                           round_of_recordings, round_of_bursts};
    double end = seconds_now() + (count > 1 ? strtod(arguments[1], NULL) : 2);
    seed = count > 2 ? strtoull(arguments[2], NULL, 10) : 1;
    random_state = seed;
    reserve_areas();
    start_receiver(DRAFT_02, BTPU_PLAIN_WINDOW);
    round_of_starts();
    for (size_t n = 0; n < LEAST_ROUNDS || seconds_now() < end; n++)
        PICK(rounds)();
    report();
    return 0;
}
