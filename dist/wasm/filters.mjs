// Columns of keys, and the Bloom filter of Apache Parquet. Licence: Apache-2.0. Programs import sketch_hash.mjs.

import { PIECE, XxHash64, checked, disposable, view } from './hashes.mjs';

const HASHES = ['BigUint64Array'];
const WIDE = [...HASHES, 'BigInt64Array'];
const OFFSETS = ['Uint32Array', 'Int32Array', ...WIDE];
const NUMBERS = [...OFFSETS, 'Float32Array', 'Float64Array'];

// The name of a typed array's type, whatever a subclass or a property says.
const { get: nameOfType } =
    Object.getOwnPropertyDescriptor(Object.getPrototypeOf(Uint8Array.prototype), Symbol.toStringTag);

// The bytes of a column, how many values it has, and their width. Its length is read once: if its buffer is shared,
// another thread may let it grow at any time.
function columnOf(values, types, name) {
    const type = nameOfType.call(values);
    if (!types.includes(type)) throw new TypeError(`${name} must be of type ${types.join(', ')}`);
    const bytes = view(values);
    const width = type.includes('64') ? 8 : 4;
    return { bytes, count: Math.floor(bytes.length / width), width, type };
}

// The columns of texts, with how many keys they are. As sketch_hash.h says, a negative offset is past the end of bytes
// that are at most 2^31 - 1.
function textsOf(bytes, offsets) {
    const ends = columnOf(offsets, OFFSETS, 'offsets');
    const reached = view(bytes).subarray(0, ends.type === 'Int32Array' ? 2 ** 31 - 1 : undefined);
    return { ends, columns: [ends, { bytes: reached, count: reached.length }], count: Math.max(ends.count - 1, 0) };
}

const ERROR_OFFSET = -2;
const ONE_IN = 'oneIn, as 100 for 1 %,';

// The length of a filter as a number. The library counts in 32 bits here, and would cut a longer one.
function lengthOf(number) {
    const length = checked(number, 'a length');
    if (length < 2n ** 32n) return Number(length);
    throw new RangeError('a Bloom filter must have a positive multiple of 32 bytes, below 2^37, and here below 2^32');
}

// Throws the error that a status of the library stands for.
function check(status, wrongOffset) {
    if (status === 0) return;
    throw new RangeError(status === ERROR_OFFSET
        ? `the offset at ${wrongOffset} is missing, past the end or below the one before`
        : 'a Bloom filter must have a positive multiple of 32 bytes, below 2^37');
}

const encoder = new TextEncoder();
const keyView = (key) => typeof key === 'string' ? encoder.encode(key) : view(key, ', or a string');

// The memory after the input, in blocks that begin and end at multiples of 64.
class Blocks {
    #module; #end;
    #ranges = []; // those that are free, by their addresses; no two of them touch

    unreachable = new FinalizationRegistry((block) => this.release(block)); // releases blocks of collected objects

    constructor(module) {
        this.#module = module;
        this.#end = 64 * Math.ceil(module.end / 64);
    }

    // Takes the first range that is long enough.
    allocate(length) {
        const size = 64 * Math.max(1, Math.ceil(length / 64));
        const range = this.#ranges.find(({ start, stop }) => stop - start >= size) ?? this.#grow(size);
        const { start } = range;
        range.start += size;
        if (range.start === range.stop) this.#ranges.splice(this.#ranges.indexOf(range), 1);
        return { start, stop: start + size };
    }

    // Makes the last range this long at least.
    #grow(size) {
        const last = this.#ranges.at(-1);
        const stop = size + (last?.stop === this.#end ? last.start : this.#end);
        this.#module.reserve(stop);
        this.release({ start: this.#end, stop });
        this.#end = stop;
        return this.#ranges.at(-1);
    }

    // Frees a block, and joins it with the ranges that it touches.
    release({ start, stop }) {
        const ranges = this.#ranges;
        const after = ranges.findIndex((range) => range.start >= stop);
        const at = after < 0 ? ranges.length : after;
        ranges.splice(at, 0, { start, stop });
        for (const left of [at, at - 1]) {
            const [one, other] = [ranges[left], ranges[left + 1]];
            if (one?.stop === other?.start) ranges.splice(left, 2, { start: one.start, stop: other.stop });
        }
    }
}

/** The calls of a module on columns. */
class Columns {
    constructor(module) {
        this.module = module;
        this.blocks = new Blocks(module);
        this.xxh64 = new XxHash64(module);
    }

    // The call for offsets or numbers of this width: its name ends with 32 or 64.
    callFor(name, { width }) { return this.module.calls[`${name}${8 * width}`]; }

    // Runs a call over columns, and returns the results. A block holds the results, then offsets or numbers, then
    // bytes, so that each array is aligned.
    run(columns, resultBytes, call) {
        const { module, blocks } = this;
        const block = blocks.allocate(columns.reduce((sum, { bytes }) => sum + bytes.length, resultBytes + 8));
        const at = block.start;
        try {
            let next = at + 8 * Math.ceil(resultBytes / 8);
            const args = columns.map(({ bytes, count }) => {
                const [address] = module.put(bytes, next);
                next += bytes.length;
                return [address, count];
            });
            check(call(at, ...args), module.size);
            return module.memory.slice(at, at + resultBytes);
        } finally {
            blocks.release(block);
        }
    }

    hashEach(name, width, bytes, offsets, seed = 0n) {
        const seedWord = checked(seed, 'a seed');
        const { ends, columns, count } = textsOf(bytes, offsets);
        return new BigUint64Array(this.run(columns, count * width, (out, ofOffsets, ofBytes) =>
            this.callFor(name, ends)(...ofBytes, ...ofOffsets, seedWord, out, count, this.module.result)).buffer);
    }

    hashEachU64(values, seed = 0n) {
        const seedWord = checked(seed, 'a seed');
        const numbers = columnOf(values, WIDE, 'numbers');
        return new BigUint64Array(this.run([numbers], 8 * numbers.count, (out, ofNumbers) =>
            this.module.calls.sketch_xxh64_each_u64(...ofNumbers, seedWord, out, numbers.count)).buffer);
    }
}

// The bits of a filter that follows its header.
function parquetBits(module, bytes) {
    const header = module.calls.sketch_bloom_header_read(
        ...module.put(bytes.subarray(0, PIECE), module.input), module.result);
    if (!header) throw new RangeError('the input does not begin with the whole header of a Bloom filter');
    const last = header + Number(module.words(1)[0]);
    if (last > bytes.length) throw new RangeError('the input ends before the Bloom filter does');
    return bytes.subarray(header, last);
}

// A Bloom filter. Its bits are at the start of a block of the module's memory. The block is free again when the filter
// was freed, or collected as garbage.
class Filter {
    #columns; #module; #block; #length;

    constructor(columns, length, bytes) {
        this.#columns = columns;
        this.#module = columns.module;
        this.#length = lengthOf(length);
        check(this.#module.calls.sketch_bloom_check(this.#length));
        this.#block = columns.blocks.allocate(this.#length);
        columns.blocks.unreachable.register(this, this.#block, this);
        if (bytes) this.#bytes().set(bytes);
        else this.#bytes().fill(0);
    }

    free() {
        if (!this.#block) return;
        this.#columns.blocks.unreachable.unregister(this);
        this.#columns.blocks.release(this.#block);
        this.#block = undefined;
    }

    // A view that a later call may detach.
    #bytes() {
        const [start] = this.#bits;
        return this.#module.memory.subarray(start, start + this.#length);
    }

    get #bits() {
        if (!this.#block) throw new TypeError('the filter was freed');
        return [this.#block.start, this.#length];
    }

    get length() { return this.#length; }

    // One call, or that of the hash if the key is long. By its hash a short key takes 1.6 times as long.
    #callOnKey(ofKey, ofHash, key) {
        const bytes = keyView(key);
        if (bytes.length > PIECE) return ofHash(...this.#bits, this.#columns.xxh64.of(bytes));
        const { memory, input } = this.#module;
        memory.set(bytes, input);
        return ofKey(...this.#bits, input, bytes.length);
    }

    add(key) {
        const { calls } = this.#module;
        check(this.#callOnKey(calls.sketch_bloom_insert, calls.sketch_bloom_insert_hash, key));
        return this;
    }

    has(key) {
        const { calls } = this.#module;
        return this.#callOnKey(calls.sketch_bloom_contains, calls.sketch_bloom_contains_hash, key) !== 0;
    }

    addHash(hash) {
        check(this.#module.calls.sketch_bloom_insert_hash(...this.#bits, checked(hash, 'a hash')));
        return this;
    }

    hasHash(hash) {
        return this.#module.calls.sketch_bloom_contains_hash(...this.#bits, checked(hash, 'a hash')) !== 0;
    }

    addEach(bytes, offsets) {
        const { ends, columns } = textsOf(bytes, offsets);
        const call = this.#columns.callFor('sketch_bloom_insert_each', ends);
        this.#columns.run(columns, 0, (_, ofOffsets, ofBytes) =>
            call(...this.#bits, ...ofBytes, ...ofOffsets, this.#module.result));
        return this;
    }

    hasEach(bytes, offsets) {
        const { ends, columns, count } = textsOf(bytes, offsets);
        const call = this.#columns.callFor('sketch_bloom_contains_each', ends);
        return this.#columns.run(columns, count, (found, ofOffsets, ofBytes) =>
            call(...this.#bits, ...ofBytes, ...ofOffsets, found, count, this.#module.result));
    }

    #addValues(call, values) {
        this.#columns.run([values], 0, (_, ofValues) => call(...this.#bits, ...ofValues));
        return this;
    }

    #hasValues(call, values) {
        return this.#columns.run([values], values.count, (found, ofValues) =>
            call(...this.#bits, ...ofValues, found, values.count));
    }

    addEachNumber(numbers) {
        const column = columnOf(numbers, NUMBERS, 'numbers');
        return this.#addValues(this.#columns.callFor('sketch_bloom_insert_each_u', column), column);
    }

    hasEachNumber(numbers) {
        const column = columnOf(numbers, NUMBERS, 'numbers');
        return this.#hasValues(this.#columns.callFor('sketch_bloom_contains_each_u', column), column);
    }

    addEachHash(hashes) {
        return this.#addValues(this.#module.calls.sketch_bloom_insert_each_hash, columnOf(hashes, HASHES, 'hashes'));
    }

    hasEachHash(hashes) {
        return this.#hasValues(this.#module.calls.sketch_bloom_contains_each_hash, columnOf(hashes, HASHES, 'hashes'));
    }

    merge(other) {
        if (!(#block in Object(other)) || other.#module !== this.#module) {
            throw new TypeError('only a Bloom filter of this module can be merged');
        }
        const args = [...this.#bits, ...other.#bits];
        if (other !== this && this.#module.calls.sketch_bloom_merge(...args)) {
            throw new RangeError(`filters of ${this.#length} and ${other.#length} bytes cannot be merged`);
        }
        return this;
    }

    // The bits after these are free then.
    #shrink(length) {
        this.#length = length;
        const start = this.#block.start + 64 * Math.ceil(length / 64);
        if (start < this.#block.stop) this.#columns.blocks.release({ start, stop: this.#block.stop });
        this.#block.stop = start;
        return this;
    }

    fold() {
        if (this.#module.calls.sketch_bloom_fold(...this.#bits)) {
            throw new RangeError(`a filter to fold must have an even number of blocks, not ${this.#length / 32}`);
        }
        return this.#shrink(this.#length / 2);
    }

    foldTo(oneIn) {
        return this.#shrink(this.#module.calls.sketch_bloom_fold_to(...this.#bits, checked(oneIn, ONE_IN)) >>> 0);
    }

    toBytes() { return this.#bytes().slice(); }

    toParquet() {
        const { calls, input, memory } = this.#module;
        const header = calls.sketch_bloom_header_write(BigInt(this.#length), input, PIECE);
        if (!header) throw new RangeError('the filter is too long for a header of Parquet');
        const bytes = new Uint8Array(header + this.#length);
        bytes.set(memory.subarray(input, input + header));
        bytes.set(this.#bytes(), header);
        return bytes;
    }
}
disposable(Filter);

/** The calls of a module on columns, and its Bloom filter. */
export function filtersOf(module) {
    const { calls } = module;
    const columns = new Columns(module);
    // A subclass's constructor may take other arguments, so it is not called.
    const create = (kind, length, bytes) => Reflect.construct(Filter, [columns, length, bytes], kind);

    class BloomFilter extends Filter {
        constructor(length) { super(columns, length); }

        static bytesFor(keys, oneIn) {
            const length = calls.sketch_bloom_bytes_for(checked(keys, 'keys'), checked(oneIn, ONE_IN));
            if (length) return length >>> 0; // a result is signed
            throw new RangeError('no Bloom filter of at most 128 MiB keeps this rate for so many keys, or oneIn is 0');
        }

        static blockOffset(length, hash) {
            const offset = calls.sketch_bloom_block_offset(lengthOf(length), checked(hash, 'a hash')) >>> 0;
            if (offset < length) return offset;
            throw new RangeError(`a filter must have a positive multiple of 32 bytes, not ${length}`);
        }

        static forKeys(keys, oneIn) { return create(this, BloomFilter.bytesFor(keys, oneIn)); }

        static fromBytes(bytes) {
            const all = view(bytes);
            return create(this, all.length, all);
        }

        static fromParquet(bytes) {
            const bits = parquetBits(module, view(bytes));
            return create(this, bits.length, bits);
        }
    }

    return {
        xxh64Each: (bytes, offsets, seed) => columns.hashEach('sketch_xxh64_each', 8, bytes, offsets, seed),
        xxh64EachU64: (values, seed) => columns.hashEachU64(values, seed),
        murmur128Each: (bytes, offsets, seed) => columns.hashEach('sketch_murmur3_x64_128_each', 16, bytes, offsets, seed),
        BloomFilter,
    };
}
