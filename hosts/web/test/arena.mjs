// The memory that the calls of a test are lent: one run of octets, with the same offsets natively and in WebAssembly. Every part is
// longer than what is lent of it at most, so that a write beyond it is seen; and more can be lent than the library asks for.

const GUARD = 64;
const MORE = 128;

/** Octets that the library asks for, part by part. Calls of a receiver or a sender are lent the parts of NEAR alone. */
const NEAR_PARTS = { state: 3144, pool: 65536, frame: 2048, output: 4096, result: 40, senderState: 24, senderFrame: 2048, bundle: 4096 };
const FAR_PARTS = { recording: 63496, sizes: 2048, octets: 61440, playOutput: 61440, lengths: 30720, places: 4096, reasons: 4096 };
/** Bursts are lent these, and state, pool and result. They lie where the parts for recordings do: the memory has no room for both. */
const BURST_PARTS = {
  burstSizes: 128, burstOctets: 131072, burstOutput: 65536, burstLengths: 512, burstNumbers: 2048, burstPlaces: 256, burstReasons: 256,
};

/** Where each part starts; all are aligned to 64 octets. */
export const at = {};
/** How many octets can be lent of each part. */
export const room = {};

let end = 0;
function lay(parts) {
  for (const [name, octets] of Object.entries(parts)) {
    at[name] = end;
    room[name] = octets + MORE;
    end += Math.ceil((octets + MORE) / 64) * 64 + GUARD;
  }
  return end;
}
export const NEAR = lay(NEAR_PARTS);
const BURSTS = lay(BURST_PARTS);
end = NEAR;
export const ARENA = Math.max(BURSTS, lay(FAR_PARTS));

/** The functions, in the order of btpu.h, with their parameters: p a pointer, n a number of 64 bits, w one of 32. */
export const FUNCTIONS = [
  ['btpu_receiver_start', 'p'],
  ['btpu_receiver_start_window', 'pw'],
  ['btpu_receiver_start_00', 'pw'],
  ['btpu_receiver_check', 'p'],
  ['btpu_receive', 'ppnpnnpnp'],
  ['btpu_receive_burst', 'ppnpnpnnnpnppppp'],
  ['btpu_sender_start', 'pnw'],
  ['btpu_sender_start_00', 'pnw'],
  ['btpu_sender_check', 'p'],
  ['btpu_place', 'ppnpnp'],
  ['btpu_cancel', 'ppnp'],
  ['btpu_flush', 'ppnp'],
  ['btpu_record', 'pnpnpnp'],
  ['btpu_recording_open', 'pnpp'],
  ['btpu_play', 'pnnpnpnpnpnpnp'],
];
export const RECEIVE = 4;
/** The parameter of btpu_receive that is the place. */
export const PLACE = 5;
/** Parameters of btpu_receive_burst. */
export const BURST = { frames: 4, octets: 6, frame: 7, place: 8, reasons: 14 };
/** The octet of a receiver's image that is its window. */
export const WINDOW = 1;
/** Stands for a pointer that is NULL. */
export const NONE = 0xffffffff;

/**
 * What a file of operations holds: a head of three u32 (octets of the arena, of its near part, where the result lies), then
 * operations, each with its number in one octet. All numbers are little-endian.
 *
 *   call        u8 function, u8 count, count u64: pointers as offsets in the arena
 *   whole       the same for btpu_receive, called again with each next place until the frame is finished or refused; and for
 *               btpu_receive_burst, called again where it stopped until all frames are taken
 *   put         u32 offset, u32 length, octets
 *   fill        u32 offset, u32 length, u8 octet
 *   turn        u32 offset, u8 bits: the bits are turned
 *   turnBack    the same, if the last call was refused
 *   section     u8 which: 0 calls of receiver and sender follow, 1 calls with recordings, 2 bursts
 */
export const OP = { call: 0, whole: 1, put: 2, fill: 3, turn: 4, turnBack: 5, section: 6 };
