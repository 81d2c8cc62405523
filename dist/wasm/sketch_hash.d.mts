/** XXH64, MurmurHash3 x64 128 and the Bloom filter of Apache Parquet, from functions that are proved. */

declare global {
    /** Of lib esnext.disposable. An engine without Symbol.dispose has no such method here, and no `using`. */
    interface SymbolConstructor {
        readonly dispose: unique symbol;
    }
}

/** What is hashed: its bytes, as they are in memory. */
export type Input = ArrayBuffer | ArrayBufferView;

/** The class URL, where it is declared: by lib dom or by @types/node. */
type Url = typeof globalThis extends { URL: new (...args: any) => infer Instance } ? Instance : never;

/** A key of a Bloom filter: bytes, or a text, of which the filter takes the UTF-8, as TextEncoder writes it. */
export type Key = Input | string;

/** A whole number from 0 to 2^64 - 1: a BigInt, or a number that is a safe integer. */
export type Whole = bigint | number;

/** Where each key of a column begins, and then where the last one ends: one more than keys. */
export type Offsets = Uint32Array | Int32Array | BigUint64Array | BigInt64Array;

/** Numbers of 4 or of 8 bytes. */
export type Numbers = Offsets | Float32Array | Float64Array;

/**
 * A stream that comes in pieces. Splitting the input into several updates gives the same hash. A file in
 * a browser, also in one that does not iterate streams:
 * `const reader = file.stream().getReader();
 * for (let part; !(part = await reader.read()).done;) stream.update(part.value);`
 */
export interface Stream {
    /** The seed of the last reset. */
    readonly seed: bigint;
    /** Appends bytes, and returns the stream. */
    update(bytes: Input): this;
    /** The hash of all bytes so far: 64 bits, or Murmur's 128 with its first word above the second. */
    digest(): bigint;
    /** The digest in lower-case hexadecimal, 16 or 32 digits, the highest first. */
    hexDigest(): string;
    /**
     * An independent stream with the same seed, bytes so far and properties. The constructor of a subclass is not
     * called, so a subclass with private fields must override this.
     */
    copy(): this;
    /** Drops all bytes, and keeps the seed if none is given. */
    reset(seed?: Whole): this;
    /** Drops the state. Other calls throw a TypeError until a reset. */
    free(): void;
    /** Calls free at the end of a block with `using`, in engines that have it. */
    [Symbol.dispose](): void;
}

/** A stream of MurmurHash3 x64 128. */
export interface MurmurStream extends Stream {
    /** The digest in the byte order that most tools print: each word's lowest byte first. */
    digestBytes(): Uint8Array;
}

/**
 * The split block Bloom filter of Apache Parquet. It has no false negatives, and may have false positives. Its bytes
 * are in the module's memory until free is called, or until the filter is collected as garbage. An engine collects
 * nothing during a loop without `await`, and does not know how large a filter is: so call free.
 *
 * A key is the value's plain bytes in Parquet: those of a text without a length, those of a number with the lowest
 * first.
 */
export interface BloomFilter {
    /** How many bytes the filter has. */
    readonly length: number;
    /** Adds a key, and returns the filter. */
    add(key: Key): this;
    /** Whether the filter may contain the key: false means that it was not added. */
    has(key: Key): boolean;
    /** Adds the key with this xxh64, of the seed 0. */
    addHash(hash: Whole): this;
    /** What `has` returns for the key with this xxh64, of the seed 0. */
    hasHash(hash: Whole): boolean;
    /** Adds each key of a column, which is as for xxh64Each. @throws {RangeError} as xxh64Each does */
    addEach(bytes: Input, offsets: Offsets): this;
    /** 1 or 0 for each key of a column: what `has` returns. @throws {RangeError} as xxh64Each does */
    hasEach(bytes: Input, offsets: Offsets): Uint8Array;
    /** Adds the bytes of each number, the lowest first. */
    addEachNumber(numbers: Numbers): this;
    /** 1 or 0 for each number: what `has` returns for its bytes. */
    hasEachNumber(numbers: Numbers): Uint8Array;
    /** Adds the keys with these xxh64, of the seed 0. */
    addEachHash(hashes: BigUint64Array): this;
    /** 1 or 0 for each hash: what `hasHash` returns. */
    hasEachHash(hashes: BigUint64Array): Uint8Array;
    /** Adds the keys of another filter of this module. @throws {RangeError} if the lengths are different */
    merge(other: BloomFilter): this;
    /**
     * Folds the filter into one of half its length, byte for byte the filter of that length of the same keys. So it can
     * be created for all keys, and made smaller once it is known how many are different.
     *
     * @throws {RangeError} if its length is not a multiple of 64. The filter is then unchanged
     */
    fold(): this;
    /**
     * Folds the filter as often as its false positive rate, by the bits that are set, stays at most one in `oneIn`. It
     * may stay as it is.
     */
    foldTo(oneIn: Whole): this;
    /** Frees the memory. Later calls but free throw a TypeError. */
    free(): void;
    /** Calls free at the end of a block with `using`, in engines that have it. */
    [Symbol.dispose](): void;
    /** A copy of the bytes, without a header. */
    toBytes(): Uint8Array;
    /** The filter as it is in a Parquet file: a header, and then the bytes. */
    toParquet(): Uint8Array;
}

/** forKeys, fromBytes and fromParquet of a subclass return an object of it, and do not call its constructor. */
export interface BloomFilterConstructor {
    /** A filter of so many bytes without keys. @throws {RangeError} if `length` is not a positive multiple of 32 */
    new (length: Whole): BloomFilter;
    /**
     * The smallest filter with a false positive rate of at most one in `oneIn`, once it has `keys` different keys.
     *
     * @throws {RangeError} if no filter of at most 128 MiB keeps this rate
     */
    forKeys(keys: Whole, oneIn: Whole): BloomFilter;
    /** The length of the filter that forKeys returns. @throws {RangeError} as forKeys does */
    bytesFor(keys: Whole, oneIn: Whole): number;
    /**
     * The offset of the block of a hash, xxh64 of the seed 0, in a filter of this length. Its 32 bytes are a filter that
     * has the hash if the whole filter has it: of a filter in a file no other bytes have to be read.
     *
     * @throws {RangeError} as the constructor does
     */
    blockOffset(length: Whole, hash: Whole): number;
    /** The filter with a copy of these bytes, without a header. @throws {RangeError} as the constructor does */
    fromBytes(bytes: Input): BloomFilter;
    /**
     * A copy of the filter of a Parquet file: the input begins with the header, and may be longer than the filter.
     *
     * @throws {RangeError} if it begins with no such header, or ends before the filter does
     */
    fromParquet(bytes: Input): BloomFilter;
}

/**
 * The calls. Each throws a TypeError if an input, a column or a seed is of another type, and a RangeError if a seed is
 * not from 0 to 2^64 - 1, or if there is no memory. A seed is 0 if left out.
 */
export interface Library {
    /** The module's version, as '3.2.0'. */
    readonly version: string;

    /** XXH64 of the bytes. */
    xxh64(bytes: Input, seed?: Whole): bigint;
    /** XXH64 of the bytes in 16 hexadecimal digits. */
    xxh64Hex(bytes: Input, seed?: Whole): string;
    /**
     * XXH64 of each key of a column, laid out as Apache Arrow does strings: key i is the bytes from offsets[i] up to
     * offsets[i + 1]. The column is copied into the module's memory, which does not shrink afterwards.
     *
     * @throws {RangeError} with the index of the first offset that is missing, past the end or below the one before
     */
    xxh64Each(bytes: Input, offsets: Offsets, seed?: Whole): BigUint64Array;
    /** XXH64 of the eight bytes of each number, the lowest first. */
    xxh64EachU64(values: BigUint64Array | BigInt64Array, seed?: Whole): BigUint64Array;
    /** An empty stream. */
    Xxh64: new (seed?: Whole) => Stream;

    /** MurmurHash3 x64 128 of the bytes: 128 bits, the first word above the second. */
    murmur128(bytes: Input, seed?: Whole): bigint;
    /** MurmurHash3 x64 128 in 32 hexadecimal digits: those of the first word first, the highest digit first. */
    murmur128Hex(bytes: Input, seed?: Whole): string;
    /** MurmurHash3 x64 128 in the byte order that most tools print: each word's lowest byte first. */
    murmur128Bytes(bytes: Input, seed?: Whole): Uint8Array;
    /** MurmurHash3 x64 128 of each key of a column: two words for each. @throws {RangeError} as xxh64Each does */
    murmur128Each(bytes: Input, offsets: Offsets, seed?: Whole): BigUint64Array;
    /** An empty stream. */
    Murmur128: new (seed?: Whole) => MurmurStream;
    /**
     * The seed hash of a seed, by which sketches of Apache DataSketches tell whether they can be merged: the low 16 bits
     * of the first word of Murmur, with seed 0, of the seed's eight bytes, the lowest first.
     *
     * @throws {RangeError} if it is 0, as of about one seed in 65,536
     */
    seedHash(seed: Whole): number;

    BloomFilter: BloomFilterConstructor;
}

/**
 * Loads the module from sketch_hash.wasm in the folder of this file, from another URL, which may be relative to this
 * file, or from its bytes.
 *
 * @throws {Error} if the engine has no WebAssembly, or what is loaded cannot be read, or is not this module
 */
export function load(source?: Url | string | Input): Promise<Library>;
