// The WebAssembly modules against the native library, call by call, in node.
import assert from 'node:assert/strict';
import fs from 'node:fs';
import path from 'node:path';
import test from 'node:test';
import { hasMemory64, Receiver } from '../btpu.mjs';
import { message, web } from './common.mjs';
import { compare } from './compare.mjs';
import { judge, prepare } from './native.mjs';

const { operations, answers } = prepare();

for (const name of ['btpu.wasm', 'btpu-plain.wasm', 'btpu64.wasm']) {
  const skip = name === 'btpu64.wasm' && !hasMemory64() && 'this node has no memory64';
  const octets = fs.readFileSync(path.join(web, name));

  test(`${name} in node answers as the native library does`, { skip }, async () => {
    const { instance } = await WebAssembly.instantiate(octets);
    console.log(judge(`node ${process.version}, ${name}`, compare(instance, operations, answers)));
  });

  test(`${name} takes frames with reserved flag bits; in draft 00, which has no flags, it refuses them`, { skip }, async () => {
    const receiver = await Receiver.create(octets), receiver00 = await Receiver.create({ draft: '00' }, octets);
    for (const flags of [0x10, 0x20, 0x40, 0x70]) {
      const frame = Uint8Array.from(message(2, flags, [flags, 7])), { bundles, refusal } = receiver.receive(frame);
      assert.equal(refusal, null);
      assert.deepEqual(bundles, [{ number: null, octets: Uint8Array.of(flags, 7) }]);
      assert.equal(receiver00.receive(frame).refusal?.number, 6);
    }
  });
}
