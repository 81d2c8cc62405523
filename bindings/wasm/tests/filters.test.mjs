import assert from 'node:assert/strict';
import test from 'node:test';
import v8 from 'node:v8';
import { runInNewContext } from 'node:vm';
import { load } from '../../../dist/wasm/sketch_hash.mjs';
import { bytes, last, library, long, detachedViews } from './helpers.mjs';

const { xxh64, murmur128, xxh64Each, xxh64EachU64, murmur128Each, BloomFilter } = library;
const offsetTypes = [Uint32Array, Int32Array, BigUint64Array, BigInt64Array];
const offsetsOf = (type, ...offsets) => type.from(offsets, type.name.startsWith('Big') ? BigInt : Number);
const words = (hash) => [hash >> 64n, hash & last];

for (const type of offsetTypes) {
    test(`each key is hashed with offsets of ${type.name}`, () => {
        const [column, keys] = [bytes('foxesdog'), ['fox', '', 'esdog'].map(bytes)];
        const offsets = offsetsOf(type, 0, 3, 3, 8);
        assert.deepEqual([...xxh64Each(column, offsets, last)], keys.map((key) => xxh64(key, last)));
        assert.deepEqual([...murmur128Each(column, offsets, 7)], keys.flatMap((key) => words(murmur128(key, 7))));
    });

    test(`a wrong offset of ${type.name} is reported with its index, and changes nothing`, () => {
        const filter = filled();
        for (const each of [xxh64Each, murmur128Each, filter.addEach.bind(filter), filter.hasEach.bind(filter)]) {
            for (const [offsets, index] of [[[0, 9], 1], [[3, 2], 1], [[9, 9], 0], [[0, 3, 2], 2]]) {
                const message = `the offset at ${index} is missing, past the end or below the one before`;
                const call = () => each(bytes('foxesdog'), offsetsOf(type, ...offsets));
                assert.throws(call, { name: 'RangeError', message });
            }
        }
        assert.deepEqual(filter.toBytes(), filled().toBytes());
    });

    test(`a column of no keys has one or no offset of ${type.name}`, () => {
        assert.equal(xxh64Each(bytes('fox'), offsetsOf(type)).length, 0);
        assert.equal(murmur128Each(bytes('fox'), offsetsOf(type, 3)).length, 0);
    });
}

test('a negative offset is past the end, also in bytes that are longer than 2 GiB', async () => {
    assert.throws(() => xxh64Each(bytes('fox'), Int32Array.of(0, -1)), /the offset at 1 is/);
    const { xxh64Each: each, BloomFilter: Filter } = await load();
    const zeros = new Uint8Array(2 ** 31 + 8);
    assert.throws(() => each(zeros, Int32Array.of(-(2 ** 31), 3 - 2 ** 31)), /the offset at 0 is/);
    assert.throws(() => new Filter(32).addEach(zeros, Int32Array.of(0, -(2 ** 31))), /the offset at 1 is/);
});

test('the memory grows for a long column', () => {
    const ends = Uint32Array.from({ length: 100_001 }, (_, at) => at * 10);
    const stream = new library.Xxh64(5).update(long.subarray(0, 99));
    const hashes = xxh64Each(long, ends, 5);
    for (const at of [0, 777, 99_999]) assert.equal(hashes[at], xxh64(long.subarray(10 * at, 10 * at + 10), 5));
    assert.equal(stream.update(long.subarray(99)).digest(), xxh64(long, 5));
});

test('the memory of a column is reused', (t) => {
    const numbers = new BigUint64Array(1e6);
    xxh64EachU64(numbers);
    const grow = t.mock.method(WebAssembly.Memory.prototype, 'grow');
    for (let n = 0; n < 3; n += 1) xxh64EachU64(numbers);
    assert.equal(grow.mock.callCount(), 0);
});

for (const type of [BigUint64Array, BigInt64Array]) {
    test(`each number of ${type.name} is hashed`, () => {
        const numbers = type.from([0n, 1n, last]);
        const expected = Array.from(numbers, (_, at) => xxh64(numbers.subarray(at, at + 1), 9));
        assert.deepEqual([...xxh64EachU64(numbers, 9)], expected);
        assert.equal(xxh64EachU64(numbers.subarray(3)).length, 0);
    });
}

test('a column may be of another frame, or of a subclass', () => {
    class Own extends BigUint64Array {}
    for (const numbers of [runInNewContext('BigUint64Array.of(5n)'), Own.of(5n)]) {
        assert.deepEqual([...xxh64EachU64(numbers)], [xxh64(BigUint64Array.of(5n))]);
    }
});

test('a column of another type is a type error', () => {
    for (const column of [[0, 3], new Uint16Array(2), new Float64Array(2), new DataView(new ArrayBuffer(8)), null]) {
        assert.throws(() => xxh64Each(long, column), TypeError);
        assert.throws(() => xxh64EachU64(column), TypeError);
    }
    assert.throws(() => xxh64EachU64(new Uint32Array(2)), /must be of type BigUint64Array, BigInt64Array$/);
    for (const view of detachedViews(Uint32Array)) assert.throws(() => xxh64Each(long, view), TypeError);
});

test('the library works after memory ran out', (t) => {
    const grow = t.mock.method(WebAssembly.Memory.prototype, 'grow', () => { throw new RangeError('no memory'); });
    assert.throws(() => xxh64EachU64(new BigInt64Array(1e7)), { name: 'RangeError', message: /call free\(\)/ });
    assert.deepEqual([...xxh64Each(bytes('fox'), Uint32Array.of(0, 3))], [xxh64(bytes('fox'))]);
    grow.mock.restore();
    assert.equal(xxh64EachU64(new BigInt64Array(1e7)).length, 1e7);
});

// ---- Bloom filters

const keys = Array.from({ length: 10 }, (_, n) => `a${n}`);
const fromHex = (digits) => Uint8Array.from(Buffer.from(digits, 'hex'));
// One block with the texts a0 to a9, as Arrow writes it.
const ofArrow = fromHex('c80150144044086d062504439050602008842b21000563410200e02c404e6004');
const headerOf1024 = fromHex('1580101c1c00001c1c00001c1c000000');
const filled = (length = 1024) => keys.reduce((filter, key) => filter.add(key), new BloomFilter(length));

test('the bytes are those of Arrow', () => {
    assert.deepEqual(filled(32).toBytes(), ofArrow);
    const filter = BloomFilter.fromBytes(ofArrow);
    assert.ok(keys.every((key) => filter.has(key)) && !filter.has('fox'));
});

test('a text is its UTF-8', () => assert.ok(filled().add('Grüße').has(bytes('Grüße'))));

test('a key may be longer than the copied pieces', () => {
    const filter = new BloomFilter(64).add(long);
    assert.ok(filter.has(long) && filter.hasHash(xxh64(long)) && !filter.has(long.subarray(1)));
});

test('a hash may be added in place of its key', () => {
    const filter = new BloomFilter(1024);
    for (const key of keys) filter.addHash(xxh64(bytes(key)));
    assert.deepEqual(filter.toBytes(), filled().toBytes());
    assert.deepEqual([filter.hasHash(xxh64(bytes('a0'))), filter.hasHash(last)], [true, false]);
});

test('a filter for keys has at most 128 MiB', () => {
    assert.equal(BloomFilter.forKeys(1_000_000, 100n).length, 2 ** 21);
    assert.equal(BloomFilter.bytesFor(0, 100), 32);
    assert.throws(() => BloomFilter.forKeys(1e9, 100), /^RangeError: no Bloom filter of at most 128 MiB/);
});

// 2^32 + 32 is 32 in the module's 32 bits.
for (const length of [0, 31, 33, 2 ** 32, 2 ** 32 + 32, 2 ** 37]) {
    test(`the length ${length} is an error`, () => {
        const message = /^RangeError: .* positive multiple of 32 bytes, below 2\^37/;
        assert.throws(() => new BloomFilter(length), message);
        assert.throws(() => BloomFilter.blockOffset(length, 7n), /^RangeError: .* positive multiple of 32 bytes/);
        if (length < 2 ** 32) assert.throws(() => BloomFilter.fromBytes(new Uint8Array(length)), RangeError);
    });
}

test('a column of keys equals single calls', () => {
    for (const type of offsetTypes) {
        const ends = offsetsOf(type, 0, 2, 4, 6, 8, 10, 12, 14, 16, 18, 20);
        const filter = new BloomFilter(1024).addEach(bytes(keys.join('')), ends);
        assert.deepEqual(filter.toBytes(), filled().toBytes());
        assert.deepEqual([...filter.hasEach(bytes('a0fxa9'), ends.subarray(0, 4))], [1, 0, 1]);
    }
});

for (const [type, inserted, other] of [
    [Uint32Array, 2 ** 32 - 1, 5], [Int32Array, -5, 5], [Float32Array, -0, 0],
    [BigUint64Array, last, 5n], [BigInt64Array, -5n, 5n], [Float64Array, -0, 0],
]) {
    test(`a number of ${type.name} is its plain bytes`, () => {
        const filter = new BloomFilter(1024).addEachNumber(type.of(inserted, inserted));
        assert.deepEqual(filter.toBytes(), new BloomFilter(1024).add(type.of(inserted)).toBytes());
        assert.deepEqual([...filter.hasEachNumber(type.of(other, inserted))], [0, 1]);
    });
}

test('a column of hashes equals single calls', () => {
    const filter = new BloomFilter(1024).addEachHash(BigUint64Array.from(keys, (key) => xxh64(bytes(key))));
    assert.deepEqual(filter.toBytes(), filled().toBytes());
    assert.deepEqual([...filter.hasEachHash(BigUint64Array.of(last, xxh64(bytes('a9'))))], [0, 1]);
});

test('a subclass may have a constructor of its own', () => {
    class Seen extends BloomFilter { constructor(count) { super(BloomFilter.bytesFor(count, 100)); } }
    const filter = new Seen(1000).add('fox');
    const copies = [Seen.fromBytes(filter.toBytes()), Seen.fromParquet(filter.toParquet()), Seen.forKeys(1000, 100).add('fox')];
    for (const copy of copies) {
        assert.ok(copy instanceof Seen);
        assert.deepEqual(copy.toBytes(), filter.toBytes());
    }
});

// As another thread may let it grow: whenever its length is read.
const canGrow = SharedArrayBuffer.prototype.grow !== undefined; // not in Node 18
test('a column may grow during a call', { skip: !canGrow }, () => {
    const buffer = new SharedArrayBuffer(4096, { maxByteLength: 2 ** 20 });
    const column = (type, name) => Object.defineProperty(new type(buffer), name, {
        get() {
            const length = Reflect.get(type.prototype, name, this);
            buffer.grow(Math.min(buffer.byteLength + 4096, 2 ** 20));
            return length;
        },
    });
    for (const name of ['length', 'byteLength']) {
        for (const call of [
            () => xxh64EachU64(column(BigUint64Array, name)), () => xxh64Each(bytes('fox'), column(Uint32Array, name)),
            () => xxh64Each(column(Uint8Array, name), Uint32Array.of(0, 3)),
            () => filled().hasEachNumber(column(Float64Array, name)),
        ]) {
            const free = new BloomFilter(buffer.byteLength * 2 + 64);
            const neighbour = filled(2 ** 14);
            free.free();
            call();
            assert.deepEqual(neighbour.toBytes(), filled(2 ** 14).toBytes());
        }
    }
});

test('a column is of its own type, whatever it says', () => {
    const numbers = Object.defineProperties(Uint32Array.of(1, 2), {
        [Symbol.toStringTag]: { value: 'BigUint64Array' }, BYTES_PER_ELEMENT: { value: 8 }, length: { value: 1000 },
    });
    assert.throws(() => xxh64EachU64(numbers), TypeError);
    assert.deepEqual([...new BloomFilter(64).addEachNumber(numbers).hasEachNumber(Uint32Array.of(1, 2, 3))], [1, 1, 0]);
});

test('a key or a column of another type is a type error', () => {
    const filter = new BloomFilter(64);
    for (const key of [5, null, ['fox'], ...detachedViews(Uint8Array)]) assert.throws(() => filter.has(key), TypeError);
    assert.throws(() => filter.addEachNumber(new Uint8Array(2)), TypeError);
    assert.throws(() => filter.addEachHash(new BigInt64Array(2)), TypeError);
    assert.throws(() => filter.addEach(bytes('fox'), [0, 3]), TypeError);
});

test('a merged filter has the keys of both', () => {
    const [one, other] = [new BloomFilter(1024).add('fox'), filled()];
    one.merge(other);
    assert.ok(one.has('fox') && keys.every((key) => one.has(key)) && !other.has('fox'));
});

test('a filter is merged into itself', () => {
    const filter = filled();
    assert.deepEqual(filter.merge(filter).toBytes(), filled().toBytes());
});

test('a filter is folded while it keeps a rate', () => {
    const large = new BloomFilter(128 * 32).add('fox').foldTo(100);
    assert.deepEqual([large.length, large.has('fox')], [32, true]);
    const full = BloomFilter.fromBytes(new Uint8Array(64).fill(255));
    assert.equal(full.foldTo(2).length, 64);
    assert.equal(full.foldTo(1).length, 32);
});

test('a block alone tells whether a filter has a hash', () => {
    const hash = xxh64(bytes('fox'));
    const start = BloomFilter.blockOffset(96, hash);
    const block = new BloomFilter(96).addHash(hash).toBytes().subarray(start, start + 32);
    assert.ok(BloomFilter.fromBytes(block).hasHash(hash));
    const error = { name: 'RangeError', message: /multiple of 32 bytes, not 33/ };
    assert.throws(() => BloomFilter.blockOffset(33, hash), error);
});

test('a folded filter is that of half the length', () => {
    const filter = filled(6 * 32).fold();
    assert.equal(filter.length, 96);
    assert.deepEqual(filter.toBytes(), filled(96).toBytes());
    assert.throws(() => filter.fold(), { name: 'RangeError', message: /must have an even number of blocks, not 3/ });
    assert.deepEqual(filter.toBytes(), filled(96).toBytes());
});

test('filters of different lengths are not merged', () => {
    const filter = filled();
    const error = { name: 'RangeError', message: /^filters of \d+ and 2048 bytes cannot be merged$/ };
    assert.throws(() => filter.merge(new BloomFilter(2048)), error);
    for (const other of [{}, undefined]) assert.throws(() => filter.merge(other), /only a Bloom filter/);
    assert.deepEqual(filter.toBytes(), filled().toBytes());
});

test('a filter in a file is a header and the bytes', () => {
    const file = filled().toParquet();
    assert.deepEqual(file, new Uint8Array(Buffer.concat([headerOf1024, filled().toBytes()])));
    const longer = Buffer.concat([file, bytes('PAR1')]);
    assert.deepEqual(BloomFilter.fromParquet(longer).toBytes(), filled().toBytes());
    assert.throws(() => BloomFilter.fromParquet(longer.subarray(1)), /does not begin with the whole header/);
    assert.throws(() => BloomFilter.fromParquet(file.subarray(0, 15)), /does not begin with the whole header/);
    assert.throws(() => BloomFilter.fromParquet(file.subarray(0, 1039)), /ends before the Bloom filter does/);
});

test('a filter in reused memory is empty', () => {
    library.xxh64EachU64(BigUint64Array.of(last, last, last)); // takes a block of 64 bytes for the time of the call
    assert.deepEqual(new BloomFilter(64).toBytes(), new Uint8Array(64));
});

test('every call of a filter that was freed is a type error', () => {
    const filter = filled();
    filter.free();
    filter.free();
    const freed = { name: 'TypeError', message: 'the filter was freed' };
    for (const call of [
        () => filter.add('fox'), () => filter.has('fox'), () => filter.addHash(1), () => filter.hasHash(1),
        () => filter.addEach(bytes('fox'), Uint32Array.of(0, 3)), () => filter.hasEach(bytes('fox'), Uint32Array.of(0, 3)),
        () => filter.addEachNumber(new Float64Array(2)), () => filter.hasEachHash(new BigUint64Array(2)),
        () => filter.merge(filled()), () => filled().merge(filter), () => filter.merge(filter), () => filter.fold(),
        () => filter.toBytes(), () => filter.toParquet(),
    ]) assert.throws(call, freed);
});

test('using frees an object, where the engine has it', { skip: !Symbol.dispose && 'this engine has no Symbol.dispose' }, () => {
    const [filter, stream] = [filled(), new library.Xxh64()];
    for (const subject of [filter, stream]) subject[Symbol.dispose]();
    assert.throws(() => filter.has('fox'), TypeError);
    assert.throws(() => stream.digest(), TypeError);
});

// Each filter is compared with a new one before it is freed.
test('10,000 filters of random sizes need little more memory than what was alive at once', async (t) => {
    const { BloomFilter: Filter } = await load(); // a module with a memory of its own
    const { grow } = WebAssembly.Memory.prototype;
    let pages = 0;
    t.mock.method(WebAssembly.Memory.prototype, 'grow', function (count) {
        const before = grow.call(this, count);
        pages += Number(count);
        return before;
    });
    let state = 1;
    const random = (below) => (state = Math.imul(state, 1103515245) + 12345 >>> 0) % below;
    const alive = new Map();
    let [now, most] = [0, 0];
    for (let n = 0; n < 10_000; n += 1) {
        const length = 32 * (1 + random(2 ** random(15)));
        alive.set(`${n}`, new Filter(length).add(`${n}`));
        most = Math.max(most, now += length);
        for (const [key, filter] of alive) {
            if (random(20)) continue;
            const expected = new Filter(filter.length).add(key);
            assert.deepEqual(filter.toBytes(), expected.toBytes());
            now -= filter.length;
            for (const each of [filter, expected]) each.free();
            alive.delete(key);
        }
    }
    assert.ok(pages * 65536 < 2 * most, `${pages * 65536} bytes for ${most}`);
});

test('the memory of collected filters is reused', async (t) => {
    v8.setFlagsFromString('--expose-gc');
    const collect = runInNewContext('gc');
    const make = (count) => { for (let n = 0; n < count; n += 1) new BloomFilter(2 ** 24).add('fox'); };
    make(10);
    for (let n = 0; n < 10; n += 1) {
        collect();
        await new Promise((resolve) => setTimeout(resolve, 10));
    }
    const grow = t.mock.method(WebAssembly.Memory.prototype, 'grow');
    make(5);
    assert.equal(grow.mock.callCount(), 0);
});
