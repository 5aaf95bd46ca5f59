/** Types of btpu.mjs. */

export type Octets = Uint8Array | ArrayBufferView | ArrayBuffer;

/** The module, or where it is. */
export type Source = string | URL | Response | BufferSource | WebAssembly.Module | Promise<Response | BufferSource | WebAssembly.Module>;

/** A draft of the protocol: draft-ietf-dtn-btpu-00 or draft-ietf-dtn-btpu-02. */
export type Draft = '00' | '02';

/** How many transfers a receiver's window has. */
export type WindowSize = 4 | 8 | 16;

/** A bundle handed out. */
export interface Bundle {
  /** Its transfer number; null if it came in one message, outside of any transfer. */
  number: number | null;
  /** A copy, which belongs to the caller. */
  octets: Uint8Array;
}

/** What came out of a list of frames. */
export interface Received {
  /** The bundles, in the order in which they were handed out. */
  bundles: Bundle[];
  /** The frames that were refused: the place of each in the list, from 0, and why. */
  refused: { frame: number; number: number; words: string }[];
}

/** Why a frame was refused. */
export interface Refusal {
  /** The number of btpu.h: 1 to 9. */
  number: number;
  /** For 4 to 8 the octet of the frame, from 0, at which the bad message starts. */
  place: number | null;
  words: string;
}

export type Phase = 'free' | 'open' | 'done' | 'cancelled' | 'given up';

/** What a receiver knows of one transfer. */
export interface Row {
  /** Its place in the window: the transfer number modulo the number of rows. */
  row: number;
  /** The transfer that the row stands for; null as long as no transfer number is known. */
  number: number | null;
  phase: Phase;
  /** The highest index, if its piece is held: in draft 02 that of the end, in draft 00 that of the start. */
  last: number | null;
  /** The pieces held, in order of arrival. */
  pieces: { index: number; length: number }[];
}

export interface Window {
  /** The greatest transfer number so far. */
  greatest: number | null;
  /** As many as the window has: 4, 8 or 16. */
  rows: Row[];
}

/** What came out of a playback. */
export interface Playback {
  /** Messages treated. */
  messages: number;
  /** The bundles, in the order in which they were handed out. */
  bundles: Uint8Array[];
  /** The frames that were looked at and refused: the place of each in the recording, from 0, and why. */
  refused: { frame: number; number: number; words: string }[];
}

export interface SavedReceiver {
  image: Uint8Array;
  pool: Uint8Array;
}

export interface SavedSender {
  image: Uint8Array;
  frame: Uint8Array;
}

export interface ReceiverStart {
  /** '02' if not given. */
  draft?: Draft;
  /** 8 if not given. */
  window?: WindowSize;
}

export interface SenderStart {
  /** 128 to 2,048 octets. */
  frameSize: number;
  /** The number of the first transfer. */
  firstNumber: number;
  /** '02' if not given. */
  draft?: Draft;
}

export const SIZES: Readonly<{
  receiverImage: 3144;
  senderImage: 24;
  poolPerRow: 4096;
  plainWindow: 8;
  maxWindow: 16;
  playWindow: 16;
  output: 4096;
  bundle: 4096;
  frame: 2048;
  burstFrames: 64;
  burstBundles: 256;
  recording: 63496;
  recordedFrames: 1024;
  recordedOctets: 61440;
  playedBundles: 15360;
}>;

export function words(number: number): string;
export function hasMemory64(): boolean;
export function load(source?: Source): Promise<WebAssembly.Module>;
export function readWindow(image: Uint8Array): Window;

/** A call that was refused because of what the caller gave. It changed nothing. */
export class RefusalError extends Error {
  constructor(returned: number);
  number: number;
}

/** The module trapped. What trapped can't be used again: make a new one, and restore what was saved last. */
export class TrapError extends Error {
  constructor(message: string, cause: unknown);
  /** Bundles handed out before the trap: by the same frame, or by the bursts of the same list that had come to their answer. */
  bundles: Bundle[];
}

/** Takes frames, in any order and with losses, and hands bundles out. */
export class Receiver {
  static create(start?: ReceiverStart | Source, source?: Source): Promise<Receiver>;
  constructor(instance: WebAssembly.Instance, start?: ReceiverStart);
  get broken(): boolean;
  get draft(): Draft;
  get windowSize(): WindowSize;
  restart(): void;
  receive(frame: Octets): { bundles: Bundle[]; refusal: Refusal | null };
  receiveAll(frames: Iterable<Octets>): Received;
  window(): Window;
  save(): SavedReceiver;
  restore(saved: { image: Octets; pool: Octets }): void;
}

/** Fills frames of one size with bundles, whole or in pieces. */
export class Sender {
  static create(start: SenderStart, source?: Source): Promise<Sender>;
  constructor(instance: WebAssembly.Instance, start: SenderStart);
  get broken(): boolean;
  get draft(): Draft;
  get frameSize(): number;
  get fill(): number;
  get nextNumber(): number;
  get begun(): boolean;
  send(bundle: Octets): Uint8Array[];
  place(bundle: Octets): { ended: boolean; frame: Uint8Array | null };
  cancel(): void;
  flush(): Uint8Array | null;
  save(): SavedSender;
  restore(saved: { image: Octets; frame: Octets }): void;
}

/** Writes, opens and plays recordings. */
export class Recorder {
  static create(source?: Source): Promise<Recorder>;
  constructor(instance: WebAssembly.Instance);
  get broken(): boolean;
  record(frames: Iterable<Octets>): Uint8Array;
  open(recording: Octets): Uint8Array[];
  play(recording: Octets, limit?: { messages?: number }): Playback;
}
