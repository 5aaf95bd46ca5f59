/*
 * btpu.h - bundle transfer over frames: receiver, sender and recordings
 *
 * A frame is one link-layer PDU of 1 to 2,048 octets. A sender fills frames with bundles, whole
 * or in pieces; a receiver takes frames, in any order and with losses, and hands the bundles out.
 * A recording keeps frames in order, and can be played back on a fresh receiver.
 *
 * Drafts. There are two: draft-ietf-dtn-btpu-02, here draft 02, and draft-ietf-dtn-btpu-00, here
 * draft 00. In draft 02 the indexes of a transfer's pieces rise from 0, the last piece is an end,
 * and headers have flags and may have hints behind them. In draft 00 the first piece is a start and
 * has the highest index, indexes fall to 0, lengths have 24 bits, and there are neither flags nor
 * hints. Receiver and sender are set to one draft by their start, keep it in their image, and all
 * calls with that image go by it. A frame does not say of which draft it is, so that frames of the
 * other draft are not told apart: a receiver reads every frame as one of its own draft. It may
 * refuse them, give up their transfers, or misread them and hand out a single piece as a bundle.
 * Set receivers and senders of one link to the same draft. A recording has no draft, and a playback
 * is always of draft 02.
 *
 * Windows. A receiver keeps the greatest transfer number that it has seen and the numbers before
 * it, 4, 8 or 16 in all: its window. So many transfers may be under way at a time, their pieces in
 * any order. Nothing is handed out of a transfer that is further behind the greatest number than
 * the window less one: what comes of it is passed over without a word, and pieces of it that were
 * held are lost. A smaller window takes less memory, since the pool has 4,096 octets for each
 * transfer of it. In return fewer transfers may be mixed, and a piece that was lost must be
 * repeated sooner: with a window of 4 before the fourth transfer after its own begins. The window
 * is chosen by the receiver's start, 8 where it names none, and kept in the image; all calls with
 * that image go by it. Receivers of one link may have different windows. A sender has none, and
 * sends one transfer after the other. A playback always has a window of 16.
 *
 * Memory. The library allocates nothing and keeps nothing. The caller lends every octet for the
 * time of a call: the image of the state, the pool, the frame, the output. What is lent must be
 * valid for the length given, or for the length in its declaration, and what a call may write to
 * must not overlap with anything else that is lent to it. A pointer that comes with a length of 0
 * may be NULL. Lengths have 64 bits also where addresses have 32. Calls with different images and
 * buffers may run at the same time. A call takes up to BTPU_STACK octets of the stack, btpu_play
 * up to BTPU_PLAY_STACK.
 *
 * Answers. Every function returns 0, or a refusal: BTPU_REFUSAL of it is the refusal's number
 * (BTPU_REFUSED_...), and for 4 to 8 BTPU_REFUSAL_PLACE of it is where in the frame the bad
 * message starts. The first refusal that applies is given, in the order of the numbers unless a
 * function names another. A refused call changes nothing that was lent; `result` is written only
 * where a call is carried out. Entries of it that carry no meaning for an answer stay as they were.
 *
 * Images. The state of a receiver or a sender is an image of a fixed number of octets. Let a start
 * write it first, and hand it back as it was left: no call refuses it then as unsound. It may be
 * stored and used again later, together with the receiver's pool, or the sender's frame;
 * btpu_receiver_check and btpu_sender_check say whether a stored image is good. All numbers in an
 * image are big-endian. A call refuses an image that is not a sound state.
 *
 * Receiver image, BTPU_RECEIVER_IMAGE octets:
 *
 *     octet    0        1 if a greatest transfer number is known, else 0
 *     octet    1        the window: 4, 8 or 16
 *     octet    2        1 for draft 00, 0 for draft 02
 *     octet    3        zero
 *     octets   4 to 7   the greatest transfer number so far; zero if none is known
 *     then, for each of 16 rows, 196 octets; transfer number n has row n modulo the window:
 *       octet  0        phase: 0 Free, 1 Open, 2 Done, 3 Cancelled, 4 Given up
 *       octet  1        1 if the highest index is known, that of the end, in draft 00 of the
 *                       start; else 0
 *       octet  2        the highest index; zero if it is not known
 *       octet  3        number of pieces held
 *       octets 4 to 67  the index of each piece held, in order of arrival; then zeros
 *       octets 68 to 195  the length of each piece held, two octets each; then zeros
 *     In a row that is not Open all octets after the phase are zero. Rows from the window on belong
 *     to no transfer: all their octets are zero.
 *
 * The data of row r lie in the pool from octet 4,096 times r on, in order of arrival.
 *
 * An image that was stored before windows could be chosen has zero in octet 1, and is refused with
 * 1. Its window was 16: a host that writes 16 there goes on with it, and with its pool.
 *
 * Sender image, BTPU_SENDER_IMAGE octets:
 *
 *     octets   0 to 1   frame size
 *     octets   2 to 3   fill: octets of the current frame that are written
 *     octets   4 to 7   number of the next transfer
 *     octet    8        1 if a transfer is begun, else 0
 *     octet    9        1 for draft 00, 0 for draft 02
 *     octets  10 to 11  zero
 *     octets  12 to 15  number of the transfer begun
 *     octets  16 to 17  length of its bundle
 *     octets  18 to 19  octets of it that are placed
 *     octets  20 to 23  index of its next piece
 *     Octets 12 to 23 are zero if no transfer is begun.
 *
 * Recording, at most BTPU_MAX_RECORDING octets, numbers big-endian:
 *
 *     4 octets          number of frames n, at most BTPU_RECORDED_FRAMES
 *     2 * n octets      the length of each frame, 1 to 2,048
 *     4 octets          number of octets m, the sum of the lengths, at most BTPU_RECORDED_OCTETS
 *     m octets          the frames, one behind another
 */
#ifndef BTPU_H
#define BTPU_H

#include <stdint.h>

#ifdef __cplusplus
extern "C" {
#endif

/* Sizes in octets */

#define BTPU_RECEIVER_IMAGE 3144
#define BTPU_SENDER_IMAGE 24
#define BTPU_POOL(window) (UINT32_C(4096) * (window)) /* of a receiver with this window */
#define BTPU_MIN_OUTPUT 4096
#define BTPU_MAX_BUNDLE 4096
#define BTPU_MAX_FRAME 2048
#define BTPU_MIN_FRAME_SIZE 128
#define BTPU_MAX_FRAME_SIZE 2048
#define BTPU_MAX_RECORDING 63496
#define BTPU_STACK 73728
#define BTPU_PLAY_STACK 139264

/* Windows: 4, 8 or 16 transfers */

#define BTPU_PLAIN_WINDOW 8 /* of btpu_receiver_start */
#define BTPU_MAX_WINDOW 16
#define BTPU_PLAY_WINDOW 16 /* of btpu_play */

/* What a burst has at most: frames, and bundles handed out */

#define BTPU_BURST_FRAMES 64
#define BTPU_BURST_BUNDLES 256

/* What a recording holds at most, and what a playback of it comes to at most */

#define BTPU_RECORDED_FRAMES 1024
#define BTPU_RECORDED_OCTETS 61440
#define BTPU_PLAYED_BUNDLES 15360

/* Octets of an image that a host may look at */

#define BTPU_RECEIVER_WINDOW 1 /* 4, 8 or 16 */
#define BTPU_RECEIVER_DRAFT 2  /* 1 for draft 00, 0 for draft 02 */
#define BTPU_SENDER_BEGUN 8    /* 1 if a transfer is begun, else 0 */
#define BTPU_SENDER_DRAFT 9    /* 1 for draft 00, 0 for draft 02 */

/* Entries of a result */

#define BTPU_RESULT 4

#define BTPU_ANSWER 0 /* which answer: BTPU_FINISHED and so on */
#define BTPU_LENGTH 1 /* of a bundle: its length in the output */
#define BTPU_PLACE 2  /* of a bundle: the next place */
#define BTPU_NUMBER 3 /* of a bundle: its transfer number, or BTPU_NO_NUMBER */

#define BTPU_BURST_RESULT 5 /* btpu_receive_burst has a result of its own */

#define BTPU_BURST_COUNT 0   /* bundles handed out */
#define BTPU_BURST_OCTETS 1  /* octets of all of them */
#define BTPU_BURST_FRAME 2   /* where the next call goes on: the frame, or the number of frames */
#define BTPU_BURST_PLACE 3   /* and the place in it */
#define BTPU_BURST_REFUSED 4 /* frames refused */

#define BTPU_WRITTEN 0 /* btpu_record: octets written */

#define BTPU_OPENED_FRAMES 0 /* btpu_recording_open: number of frames */
#define BTPU_OPENED_OCTETS 1 /* octets of all frames */
#define BTPU_OPENED_START 2  /* where in the recording the frames' octets start */

#define BTPU_PLAYED_MESSAGES 0 /* btpu_play: messages treated */
#define BTPU_PLAYED_COUNT 1    /* bundles handed out */
#define BTPU_PLAYED_OCTETS 2   /* octets of all bundles */
#define BTPU_PLAYED_REFUSED 3  /* frames refused */

/* Answers of btpu_receive */

#define BTPU_FINISHED 0
#define BTPU_BUNDLE 1

/* The transfer number of a bundle that came in one message, outside of any transfer */

#define BTPU_NO_NUMBER UINT64_C(4294967296)

/* Answers of btpu_place, btpu_cancel and btpu_flush */

#define BTPU_PLACED 0           /* a message was added to the frame */
#define BTPU_PLACED_AND_READY 1 /* a message was added, and the frame is full: send it */
#define BTPU_READY 2            /* the frame was closed by padding: send it; nothing was placed */
#define BTPU_NOTHING 3          /* there was nothing to flush */

/* What a call returns, taken apart: the refusal's number, or 0; the place for 4 to 8, else 0 */

#define BTPU_REFUSAL(returned) ((returned) & UINT32_C(255))
#define BTPU_REFUSAL_PLACE(returned) ((returned) >> 8)

/*
 * Refusals. In draft 00 a message is refused with 4, 6 or 8 alone. All three octets behind the type
 * are the length there, so that what draft 02 takes for flags counts for 6; 8 is for a start or a
 * segment below 8 octets, or a cancel of other than 4.
 */

#define BTPU_REFUSED_STATE 1         /* not a sound state: all calls with an image but the starts */
#define BTPU_REFUSED_LENT 2          /* receive, receive_burst: pool not 4,096 octets times the
                                        window, or output below 4,096; play: pool not 65,536 */
#define BTPU_REFUSED_FRAME_LENGTH 3  /* receive: frame of 0 or more than 2,048 octets;
                                        receive_burst: more than 64 frames */
#define BTPU_REFUSED_HEADER 4        /* receive: fewer than 4 octets left for a header */
#define BTPU_REFUSED_FLAG 5          /* never given: reserved flag bits are ignored, and
                                        draft 00 has none */
#define BTPU_REFUSED_LENGTH 6        /* receive: a length runs past the frame */
#define BTPU_REFUSED_HINTS 7         /* receive: a chain of hints runs past its message; draft
                                        02 only */
#define BTPU_REFUSED_CONTENT 8       /* receive: content of a transfer message too short, or of a
                                        cancel not 4 octets */
#define BTPU_REFUSED_PLACE 9         /* receive, receive_burst: not a good place */
#define BTPU_REFUSED_FRAME_BUFFER 10 /* place, cancel, flush: frame buffer not of the frame size */
#define BTPU_REFUSED_BUNDLE 11       /* place: bundle of 0 or more than 4,096 octets */
#define BTPU_REFUSED_OTHER_LENGTH 12 /* place: not the length of the transfer begun */
#define BTPU_REFUSED_NOT_BEGUN 13    /* cancel: no transfer is begun */
#define BTPU_REFUSED_FRAME_SIZE 14   /* sender's start: frame size outside 128 to 2,048 */
#define BTPU_REFUSED_CUT_SHORT 16    /* recording_open, play: octets of the recording are missing */
#define BTPU_REFUSED_OVER_LIMIT 17   /* record, recording_open, play: more than 1,024 frames or
                                        61,440 octets */
#define BTPU_REFUSED_RECORDED_LENGTH 18 /* the same: a frame's length outside 1 to 2,048 */
#define BTPU_REFUSED_OCTET_COUNT 19  /* the same, and receive_burst: the octets are not the sum of
                                        the lengths */
#define BTPU_REFUSED_LEFT_OVER 20    /* recording_open, play: octets behind the recording */
#define BTPU_REFUSED_WINDOW 21       /* receiver's start: window not 4, 8 or 16 */
#define BTPU_REFUSED_SHORT_OUTPUT 24 /* record: output too short; play: an output or a list has
                                        fewer entries than btpu_play asks for */

/*
 * Writes the image of a fresh receiver of draft 02 with a window of BTPU_PLAIN_WINDOW. The old
 * content of the image does not matter.
 * Refusals: none.
 */
uint32_t btpu_receiver_start(uint8_t state[BTPU_RECEIVER_IMAGE]);

/*
 * The same with a window of 4, 8 or 16.
 * Refusal: 21.
 */
uint32_t btpu_receiver_start_window(uint8_t state[BTPU_RECEIVER_IMAGE], uint32_t window);

/*
 * The same for a receiver of draft 00.
 * Refusal: 21.
 */
uint32_t btpu_receiver_start_00(uint8_t state[BTPU_RECEIVER_IMAGE], uint32_t window);

/*
 * Whether an image is a sound state, for a host that restores a stored one.
 * Refusal: 1.
 */
uint32_t btpu_receiver_check(const uint8_t state[BTPU_RECEIVER_IMAGE]);

/*
 * Treats the messages of a frame from `place` on, up to the first bundle handed out.
 *
 * The whole frame is checked first; a frame with a bad message anywhere has no effect at all.
 * Good places are 0, the start of each message and frame_len. To take a frame to its end, call
 * with place 0, then with each next place answered, until the answer is BTPU_FINISHED.
 *
 * Answers, in result[BTPU_ANSWER]:
 *   BTPU_BUNDLE    the first result[BTPU_LENGTH] octets of the output are a bundle, the others
 *                  stay; result[BTPU_PLACE] is the next place, result[BTPU_NUMBER] the transfer
 *                  number or BTPU_NO_NUMBER. A bundle may have length 0.
 *   BTPU_FINISHED  no bundle up to the frame's end; output and other entries of result stay.
 *
 * The pool has exactly BTPU_POOL(state[BTPU_RECEIVER_WINDOW]) octets, of any content at first, and
 * belongs to this receiver: hand it back as it was left. The output has at least BTPU_MIN_OUTPUT
 * octets.
 * Refusals: 1 to 9, but never 5, and 7 only in draft 02.
 */
uint32_t btpu_receive(uint8_t state[BTPU_RECEIVER_IMAGE], uint8_t *pool, uint64_t pool_len,
                      const uint8_t *frame, uint64_t frame_len, uint64_t place, uint8_t *output,
                      uint64_t output_len, uint64_t result[BTPU_RESULT]);

/*
 * Takes up to BTPU_BURST_FRAMES frames in one call, as calls of btpu_receive one after another
 * would.
 *
 * The frames are given by their lengths, sizes[0] to sizes[frames - 1], and their octets, one
 * behind another; a frame too long for 16 bits may be given as any length above 2,048. They are
 * taken from frame `frame`, from 0, and from `place` in it on. A frame that btpu_receive would
 * refuse, other than for its place, is passed over, whatever the place: its number among the
 * frames, from 0, goes to places and the number of its refusal (3, 4, 6, 8, in draft 02 also 7) to
 * reasons. Before each message, and before a frame is passed over, the call stops if
 * BTPU_BURST_BUNDLES bundles are out or fewer than BTPU_MIN_OUTPUT octets of output are left. To
 * take all frames, call with frame 0 and place 0, then with the frame and place answered, until
 * that frame is `frames`. At a frame's end the answer is the next frame and place 0.
 *
 * The bundles go one behind another to the front of the output, their lengths to the front of
 * lengths, their transfer numbers or BTPU_NO_NUMBER to the front of numbers; the entries
 * BTPU_BURST_... of result say how many there are, and where the next call goes on. All other
 * octets and entries stay.
 *
 * Pool and output as for btpu_receive. With more output than 4,096 octets fewer calls are needed:
 * 1,048,576 octets suffice for 256 bundles.
 * Refusals: 1; 2; 3 for more than BTPU_BURST_FRAMES frames; 19; 9 for a frame above `frames`, or a
 * place that btpu_receive refuses with 9, or any but 0 where frame is `frames`; in this order.
 */
uint32_t btpu_receive_burst(uint8_t state[BTPU_RECEIVER_IMAGE], uint8_t *pool, uint64_t pool_len,
                            const uint16_t *sizes, uint64_t frames, const uint8_t *octets,
                            uint64_t octets_len, uint64_t frame, uint64_t place, uint8_t *output,
                            uint64_t output_len, uint16_t lengths[BTPU_BURST_BUNDLES],
                            uint64_t numbers[BTPU_BURST_BUNDLES],
                            uint32_t places[BTPU_BURST_FRAMES],
                            uint32_t reasons[BTPU_BURST_FRAMES],
                            uint64_t result[BTPU_BURST_RESULT]);

/*
 * Writes the image of a fresh sender of draft 02 with frames of frame_size octets, whose first
 * transfer has the number first_number. The old content of the image does not matter.
 * Refusal: 14.
 */
uint32_t btpu_sender_start(uint8_t state[BTPU_SENDER_IMAGE], uint64_t frame_size,
                           uint32_t first_number);

/*
 * The same for a sender of draft 00.
 * Refusal: 14.
 */
uint32_t btpu_sender_start_00(uint8_t state[BTPU_SENDER_IMAGE], uint64_t frame_size,
                              uint32_t first_number);

/*
 * Whether an image is a sound state, for a host that restores a stored one.
 * Refusal: 1.
 */
uint32_t btpu_sender_check(const uint8_t state[BTPU_SENDER_IMAGE]);

/*
 * Adds at most one message with octets of the bundle to the frame, or closes the frame.
 *
 * Call it with the same bundle until the bundle is at its end: that is after BTPU_PLACED or
 * BTPU_PLACED_AND_READY with state[BTPU_SENDER_BEGUN] 0. After BTPU_PLACED_AND_READY and
 * BTPU_READY the frame buffer holds a frame to send, before the next call.
 * The frame buffer has exactly frame-size octets; hand it back as it was left. What a call adds
 * stands behind the octets already written; the other octets of the buffer stay.
 * Refusals: 1, 10, 11, 12.
 */
uint32_t btpu_place(uint8_t state[BTPU_SENDER_IMAGE], const uint8_t *bundle, uint64_t bundle_len,
                    uint8_t *frame, uint64_t frame_len, uint64_t result[BTPU_RESULT]);

/*
 * Gives up the transfer begun and adds a cancel for it to the frame. Answer: BTPU_PLACED.
 * Refusals: 1, 10, 13.
 */
uint32_t btpu_cancel(uint8_t state[BTPU_SENDER_IMAGE], uint8_t *frame, uint64_t frame_len,
                     uint64_t result[BTPU_RESULT]);

/*
 * Closes a frame that is begun. Answers: BTPU_READY, or BTPU_NOTHING if the frame is empty; image
 * and frame buffer stay then.
 * Refusals: 1, 10.
 */
uint32_t btpu_flush(uint8_t state[BTPU_SENDER_IMAGE], uint8_t *frame, uint64_t frame_len,
                    uint64_t result[BTPU_RESULT]);

/*
 * Writes frames as a recording to the front of the output; the output's other octets stay. The
 * frames are given by their lengths, sizes[0] to sizes[frames - 1], and their octets, one behind
 * another. result[BTPU_WRITTEN] is the length of the recording, 8 + 2 * frames + octets_len.
 * Refusals: 17, 18, 19, 24, in this order.
 */
uint32_t btpu_record(const uint16_t *sizes, uint64_t frames, const uint8_t *octets,
                     uint64_t octets_len, uint8_t *output, uint64_t output_len,
                     uint64_t result[BTPU_RESULT]);

/*
 * Reads a recording: the lengths of its frames go to sizes, followed by zeros; the entries
 * BTPU_OPENED_... of result say how many frames and octets there are and where the octets start.
 * Refusals: 16 or 17, whichever comes first in the recording; then 18, 19, 20, in this order.
 */
uint32_t btpu_recording_open(const uint8_t *recording, uint64_t recording_len,
                             uint16_t sizes[BTPU_RECORDED_FRAMES], uint64_t result[BTPU_RESULT]);

/*
 * Plays a recording on a fresh receiver of draft 02 with a window of BTPU_PLAY_WINDOW, until
 * `limit` messages are treated or all are. It may stop inside a frame; a frame behind the last
 * message is not looked at. Every message counts, a run of padding as one; a refused frame has
 * none.
 *
 * The bundles go one behind another to the front of the output, their lengths to the front of
 * lengths; for each frame refused, its place in the recording, from 0, goes to places and the
 * number of its refusal to reasons. All other octets and entries stay. The entries
 * BTPU_PLAYED_... of result say how many there are of each. The pool is left as btpu_receive
 * would leave it.
 *
 * The pool has exactly BTPU_POOL(BTPU_PLAY_WINDOW) octets. At least BTPU_RECORDED_OCTETS octets of
 * output, BTPU_PLAYED_BUNDLES lengths, and BTPU_RECORDED_FRAMES places and reasons are asked for:
 * every recording has room in them.
 * Refusals: 16 to 20 as btpu_recording_open gives them; then 2; then 24.
 */
uint32_t btpu_play(const uint8_t *recording, uint64_t recording_len, uint64_t limit, uint8_t *pool,
                   uint64_t pool_len, uint8_t *output, uint64_t output_len, uint16_t *lengths,
                   uint64_t lengths_len, uint32_t *places, uint64_t places_len, uint32_t *reasons,
                   uint64_t reasons_len, uint64_t result[BTPU_RESULT]);

#ifdef __cplusplus
}
#endif

#endif
