import assert from 'node:assert/strict';
import { readFileSync } from 'node:fs';
import test from 'node:test';
import { runInNewContext } from 'node:vm';
import { load } from '../../../dist/wasm/sketch_hash.mjs';
import { bytes, fox, last, library, long, detachedViews, version } from './helpers.mjs';

const { xxh64, xxh64Hex, murmur128, murmur128Hex, murmur128Bytes, Xxh64, Murmur128 } = library;
const kinds = [[Xxh64, xxh64], [Murmur128, murmur128]];

test('the version is that of the package', () => assert.equal(library.version, version));

for (const [name, input, seed, ofXxh64, ofMurmur] of [
    ['nothing', bytes(''), 0, 'ef46db3751d8e999', '0'.repeat(32)],
    ['the fox', fox, 0, '0b242d361fda71bc', 'e34bbc7bbc071b6c7a433ca9c49a9347'],
    ['a wide seed', Uint8Array.of(0xa1, 0xd8, 0x2b), 0xcdde8d516301bbfcn, '937800ca51e4a6d8',
        '72d4dcbfd199ad6f5170f4d9e50bb254'],
]) {
    test(`${name} has the published hashes`, () => {
        assert.equal(xxh64Hex(input, seed), ofXxh64);
        assert.equal(xxh64(input, seed), BigInt(`0x${ofXxh64}`));
        assert.equal(murmur128Hex(input, seed), ofMurmur);
        assert.equal(murmur128(input, seed), BigInt(`0x${ofMurmur}`));
    });
}

test('seed hashes are those of DataSketches', () => {
    const seeds = [[0, 50123], [1, 50250], [2, 49320], [3n, 35596], [42, 32248], [123, 1462], [9001, 37836]];
    for (const [seed, hash] of seeds) assert.equal(library.seedHash(seed), hash);
    const message = 'the hash of the seed 50541 is 0, so sketches cannot use it: choose another seed';
    assert.throws(() => library.seedHash(50541), { name: 'RangeError', message });
    assert.throws(() => library.seedHash(-1), RangeError);
    assert.throws(() => library.seedHash(), TypeError);
});

test('the bytes of Murmur are in memory order', () => {
    const expected = new Uint8Array(Buffer.from('6c1b07bc7bbc4be347939ac4a93c437a', 'hex'));
    assert.deepEqual(murmur128Bytes(fox), expected);
    assert.deepEqual(new Murmur128().update(fox).digestBytes(), expected);
});

for (const [Kind, hash] of kinds) {
    // The glue copies 262,144 bytes at a time.
    for (const [size, step] of [[43, 1], [43, 17], [262_144, 99_991], [262_145, 262_144], [524_289, 99_991]]) {
        test(`${Kind.name} of ${size} bytes in pieces of ${step} is that of one call`, () => {
            const stream = new Kind(last);
            for (let at = 0; at < size; at += step) stream.update(long.subarray(at, Math.min(at + step, size)));
            assert.equal(stream.digest(), hash(long.subarray(0, size), last));
        });
    }

    test(`a copy of ${Kind.name} is independent`, () => {
        const stream = new Kind(7).update(fox);
        const copy = stream.copy().update(fox);
        assert.equal(stream.digest(), hash(fox, 7));
        assert.equal(copy.digest(), hash(Buffer.concat([fox, fox]), 7));
    });
}

test('streams may be updated in turns', () => {
    const [one, other] = [new Xxh64(1), new Xxh64(2)];
    for (const byte of fox) {
        one.update(Uint8Array.of(byte));
        other.update(Uint8Array.of(byte));
    }
    assert.deepEqual([one.digest(), other.digest()], [xxh64(fox, 1), xxh64(fox, 2)]);
});

test('a reset drops the bytes, and keeps the seed if none is given', () => {
    const stream = new Xxh64(7).update(fox).reset();
    assert.deepEqual([stream.seed, stream.update(fox).digest()], [7n, xxh64(fox, 7)]);
    assert.deepEqual([stream.reset(0).seed, stream.update(fox).digest()], [0n, xxh64(fox)]);
});

test('a copy of a subclass has its properties, and keeps the seed', () => {
    class Named extends Xxh64 {
        constructor(name, seed) {
            super(seed);
            this.name = name;
        }
    }
    const copy = new Named('fox', 7n).update(fox).copy();
    assert.ok(copy instanceof Named);
    assert.deepEqual([copy.name, copy.seed, copy.digest()], ['fox', 7n, xxh64(fox, 7)]);
    assert.equal(copy.reset().update(fox).digest(), xxh64(fox, 7));
});

test('a stream that was freed is a type error until it is reset', () => {
    for (const [Kind, hash] of kinds) {
        const stream = new Kind(7).update(fox);
        stream.free();
        const freed = { name: 'TypeError', message: 'the stream was freed' };
        for (const call of [() => stream.update(fox), () => stream.digest(), () => stream.copy()]) assert.throws(call, freed);
        assert.equal(stream.reset().update(fox).digest(), hash(fox, 7));
    }
});

test('a seed is a number or a BigInt', () => {
    assert.equal(xxh64(fox, Number.MAX_SAFE_INTEGER), xxh64(fox, BigInt(Number.MAX_SAFE_INTEGER)));
    assert.equal(new Murmur128(7).seed, 7n);
});

for (const seed of [-1, 1.5, 2 ** 53, NaN, -1n, 2n ** 64n, '0', null]) {
    test(`the seed ${typeof seed} ${seed} is an error`, () => {
        const stream = new Xxh64(7).update(fox);
        const name = ['number', 'bigint'].includes(typeof seed) ? 'RangeError' : 'TypeError';
        for (const call of [xxh64, murmur128]) assert.throws(() => call(fox, seed), { name });
        assert.throws(() => new Xxh64(seed), { name });
        assert.throws(() => stream.reset(seed), { name });
        assert.equal(stream.digest(), xxh64(fox, 7)); // unchanged
    });
}

test('the input may be any view, or of another frame', () => {
    const { buffer } = Uint8Array.from({ length: 64 }, (_, at) => at);
    const shared = new Uint8Array(new SharedArrayBuffer(16));
    shared.set(new Uint8Array(buffer, 8, 16));
    const part = [buffer, 8, 16];
    const ofAnotherFrame = runInNewContext('Uint8Array.from({ length: 16 }, (_, at) => at + 8).buffer');
    for (const view of [new DataView(...part), Buffer.from(...part), buffer.slice(8, 24), shared, ofAnotherFrame]) {
        assert.equal(xxh64(view), xxh64(new Uint8Array(...part)));
    }
});

test('an input of another type is a type error', () => {
    const pretends = { [Symbol.toStringTag]: 'ArrayBuffer', byteLength: 8, length: 1 };
    for (const input of ['fox', [1, 2], 5, null, undefined, pretends]) assert.throws(() => xxh64(input), TypeError);
    assert.throws(() => new Xxh64().update('fox'), /TextEncoder/);
});

test('a view of a detached buffer is a type error', () => {
    for (const kind of [Uint8Array, BigUint64Array, DataView]) {
        for (const view of detachedViews(kind)) assert.throws(() => xxh64(view), TypeError);
    }
});

test('an input may be longer than 2^31 bytes', () => {
    const zeros = new Uint8Array(2 ** 32); // takes no memory, since it is never written
    assert.equal(xxh64(zeros, last), 0x883c7d38001fe1ebn);
    assert.equal(murmur128(zeros.subarray(0, 2 ** 31 + 5), last), 0x01cfde68872ce8d84a9cf110ff9205c1n);
});

// ---- Loading the module

const url = new URL('../../../dist/wasm/sketch_hash.wasm', import.meta.url);
const module = readFileSync(url);
const works = (loaded) => loaded.xxh64(fox) === library.xxh64(fox);

for (const source of [module, url, url.href, 'sketch_hash.wasm']) {
    const name = source === module ? 'bytes' : `${typeof source} ${source}`;
    test(`the module is loaded from ${name}`, async () => assert.ok(works(await load(source))));
}

for (const part of [module.subarray(1), module.subarray(0, 1000), new ArrayBuffer(0)]) {
    test(`${part.byteLength} bytes that are not a module are an error`, async () => {
        await assert.rejects(load(part), /not a WebAssembly module, is truncated, or/);
    });
}

test('another module, or another version, is an error', async (t) => {
    const error = { message: `what was loaded is not sketch_hash ${version}` };
    await assert.rejects(load(Uint8Array.of(0, 0x61, 0x73, 0x6d, 1, 0, 0, 0)), error);
    const { instantiate } = WebAssembly;
    t.mock.method(WebAssembly, 'instantiate', async (...args) => {
        const { exports } = (await instantiate(...args)).instance;
        return { instance: { exports: { ...exports, sketch_hash_version: () => 10200 } } };
    });
    await assert.rejects(load(module), error);
});

test('a missing file is an error', async () => {
    await assert.rejects(load(new URL('missing.wasm', url)), { code: 'ENOENT' });
});

test('a URL of a server is fetched', async (t) => {
    const fetch = t.mock.method(globalThis, 'fetch', async () => new Response(module));
    assert.ok(works(await load('https://localhost/sketch_hash.wasm')));
    assert.equal(fetch.mock.calls[0].arguments[0].href, 'https://localhost/sketch_hash.wasm');
});

test('a failed request is an error with the status', async (t) => {
    t.mock.method(globalThis, 'fetch', async () => new Response(module, { status: 404, statusText: 'Not Found' }));
    await assert.rejects(load('https://localhost/a.wasm'), { message: 'https://localhost/a.wasm: 404 Not Found' });
});

test('a browser fetches a file: URL too', async (t) => {
    t.mock.method(globalThis, 'fetch', async () => new Response(module));
    const { process } = globalThis;
    t.after(() => { globalThis.process = process; });
    globalThis.process = undefined;
    assert.ok(works(await load()));
});

test('an engine without WebAssembly is an error', async (t) => {
    const { WebAssembly } = globalThis;
    t.after(() => { globalThis.WebAssembly = WebAssembly; });
    globalThis.WebAssembly = undefined;
    await assert.rejects(load(module), /this engine has no WebAssembly/);
});
