// What the tests share: the module, as it is loaded by default, the version of the package, and inputs.
import { readFileSync } from 'node:fs';
import { load } from '../../../dist/wasm/sketch_hash.mjs';

export const library = await load();
export const { version } = JSON.parse(readFileSync(new URL('../../../dist/wasm/package.json', import.meta.url)));
export const fox = new TextEncoder().encode('The quick brown fox jumps over the lazy dog');
export const last = 2n ** 64n - 1n;
/** Longer than what the module's memory takes at a time. */
export const long = new Uint8Array(1_000_001).map((_, at) => Math.imul(at, 2654435761) >>> 24);
export const bytes = (text) => new TextEncoder().encode(text);

/** Views whose memory was given away, or ends before they begin. */
export function detachedViews(kind) {
    const givenAway = new kind(new ArrayBuffer(16));
    structuredClone(givenAway.buffer, { transfer: [givenAway.buffer] });
    if (!ArrayBuffer.prototype.resize) return [givenAway]; // Node 18
    const buffer = new ArrayBuffer(16, { maxByteLength: 16 });
    const shrunk = new kind(buffer, 8);
    buffer.resize(0);
    return [givenAway, shrunk];
}
