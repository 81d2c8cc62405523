// The WebAssembly module of sketch_hash, and its hashes. Licence: Apache-2.0. Programs import sketch_hash.mjs.

const VERSION = '3.2.0';
const PAGE = 65536;
/** Bytes of a long input that are copied into the module's memory at a time. */
export const PIECE = 4 * PAGE;

/** The module at a URL or in bytes. */
export async function moduleFrom(source = new URL('sketch_hash.wasm', import.meta.url)) {
    const bytes = source instanceof URL || typeof source === 'string' ? await read(source) : source;
    if (!globalThis.WebAssembly) throw new Error('this engine has no WebAssembly');
    if (!WebAssembly.validate(bytes)) {
        throw new Error('what was loaded is not a WebAssembly module, is truncated, or this engine is too old for it');
    }
    const { exports } = (await WebAssembly.instantiate(bytes, {})).instance;
    const [major, minor, patch] = VERSION.split('.').map(Number);
    if (exports.sketch_hash_version?.() !== 10000 * major + 100 * minor + patch) {
        throw new Error(`what was loaded is not sketch_hash ${VERSION}`);
    }
    return new Module(exports);
}

// In a variable, since webpack takes what stands before import.meta.url for the name of a file.
const HERE = import.meta.url;

async function read(place) {
    const url = new URL(place, HERE);
    if (url.protocol === 'file:' && globalThis.process?.versions?.node) {
        // Bundlers would look for a constant name, and a page has no such module.
        const name = ['node:fs', 'promises'].join('/');
        return (await import(/* webpackIgnore: true */ /* @vite-ignore */ name)).readFile(url);
    }
    const response = await fetch(url);
    if (!response.ok) throw new Error(`${url}: ${response.status} ${response.statusText}`);
    return response.arrayBuffer();
}

/** The calls and the memory: after the module's own data a result, the state of a stream, an input, and what is free. */
class Module {
    constructor(calls) {
        this.calls = calls;
        this.result = (calls.__heap_base.value + 15) & ~15;
        this.state = this.result + 16;
        this.input = this.state + 80;
        this.end = this.input + PIECE;
        this.memory = new Uint8Array(calls.memory.buffer);
        this.reserve(this.end);
    }

    /** Grows the memory to at least this length, which detaches views of it. */
    reserve(length) {
        if (this.memory.length >= length) return;
        try {
            this.calls.memory.grow(Math.ceil((length - this.memory.length) / PAGE));
        } catch (error) {
            throw new RangeError('no memory is left: call free() on each filter that is no longer used', { cause: error });
        }
        this.memory = new Uint8Array(this.calls.memory.buffer);
    }

    /** Copies bytes to an address, and returns it and their length as arguments of a call. */
    put(bytes, at) {
        this.memory.set(bytes, at);
        return [at, bytes.length];
    }

    /** The words of the last result. */
    words(count) {
        return new BigUint64Array(this.memory.buffer, this.result, count);
    }

    /** The size that the last call wrote. */
    get size() {
        return new Uint32Array(this.memory.buffer, this.result, 1)[0];
    }
}

// A built-in object's type, also if another frame made it.
const typeOf = (value) => Object.prototype.toString.call(value).slice(8, -1);

/** The bytes of an input, without a copy. */
export function view(input, advice = '; encode a string with TextEncoder') {
    if (ArrayBuffer.isView(input)) {
        input.keys?.(); // throws if the buffer was shrunk below the array, which then has no bytes
        return new Uint8Array(input.buffer, input.byteOffset, input.byteLength);
    }
    if (typeOf(input) === 'ArrayBuffer') return view(new DataView(input));
    throw new TypeError(`the input must be an ArrayBuffer or a view of one${advice}`);
}

const unsigned = (word) => BigInt.asUintN(64, word);

/** A whole number from 0 to 2^64 - 1 as a BigInt. */
export function checked(number, name) {
    const isBigInt = typeof number === 'bigint';
    if (isBigInt || Number.isSafeInteger(number)) {
        const word = BigInt(number);
        if (word === unsigned(word)) return word;
    }
    const error = isBigInt || typeof number === 'number' ? RangeError : TypeError;
    throw new error(`${name} must be a whole number from 0 to 2^64 - 1, from 2^53 on a BigInt`);
}

/** Lets `using` free an object at the end of its block, in engines that have it. */
export function disposable(kind) {
    if (!Symbol.dispose) return;
    Object.defineProperty(kind.prototype, Symbol.dispose, { value() { this.free(); } });
}

/**
 * A hash by the calls of a module: `hashInput` of an input in the module's memory, `hashState` of the state there. `value`
 * makes the hash of what these return.
 */
class Hash {
    constructor(module, name, stateSize, digits) {
        this.module = module;
        this.stateSize = stateSize;
        this.digits = digits;
        this.reset = module.calls[`sketch_${name}_reset`];
        this.update = module.calls[`sketch_${name}_update`];
    }

    /** Hashes bytes by one call, or by a stream if they are many. */
    run(bytes, seed = 0n) {
        const all = view(bytes);
        if (all.length > PIECE) {
            new Stream(this, seed).update(all);
            return this.hashState();
        }
        const seedWord = checked(seed, 'a seed');
        return this.hashInput(...this.module.put(all, this.module.input), seedWord);
    }

    of(bytes, seed) { return this.value(this.run(bytes, seed)); }

    hex(hash) { return hash.toString(16).padStart(this.digits, '0'); }
}

export class XxHash64 extends Hash {
    constructor(module) { super(module, 'xxh64', 80, 16); }

    hashInput(at, length, seed) { return this.module.calls.sketch_xxh64(at, length, seed); }

    hashState() { return this.module.calls.sketch_xxh64_digest(this.module.state); }

    value(word) { return unsigned(word); }
}

class MurmurHash extends Hash {
    constructor(module) { super(module, 'murmur3_x64_128', 40, 32); }

    hashInput(at, length, seed) {
        this.module.calls.sketch_murmur3_x64_128(at, length, seed, this.module.result);
    }

    hashState() {
        this.module.calls.sketch_murmur3_x64_128_digest(this.module.state, this.module.result);
    }

    value() {
        const [h1, h2] = this.module.words(2);
        return h1 << 64n | h2;
    }

    /** The last hash in memory order. */
    bytes() {
        const { module } = this;
        module.calls.sketch_murmur3_x64_128_bytes(module.result, module.state);
        return module.memory.slice(module.state, module.state + 16);
    }
}

/** A stream, whose state is outside of the module's memory between calls. */
class Stream {
    #hash; #seed; #saved;

    constructor(hash, seed = 0n) {
        this.#hash = hash;
        this.reset(seed);
    }

    get seed() { return this.#seed; }

    reset(seed = this.#seed) {
        const { module, stateSize } = this.#hash;
        this.#seed = checked(seed, 'a seed');
        this.#hash.reset(module.state, this.#seed);
        this.#saved = module.memory.slice(module.state, module.state + stateSize);
        return this;
    }

    #restore() {
        if (!this.#saved) throw new TypeError('the stream was freed');
        const { module } = this.#hash;
        module.memory.set(this.#saved, module.state);
    }

    update(bytes) {
        const all = view(bytes);
        this.#restore();
        const { module, update, stateSize } = this.#hash;
        const { state, input } = module;
        for (let at = 0; at < all.length; at += PIECE) {
            update(state, ...module.put(all.subarray(at, at + PIECE), input));
        }
        this.#saved.set(module.memory.subarray(state, state + stateSize));
        return this;
    }

    digest() {
        this.#restore();
        return this.#hash.value(this.#hash.hashState());
    }

    hexDigest() { return this.#hash.hex(this.digest()); }

    // A subclass's constructor may take other arguments, so it is not called.
    copy() {
        this.#restore();
        const other = Reflect.construct(Stream, [this.#hash, this.#seed], this.constructor);
        other.#saved = this.#saved.slice();
        return Object.assign(other, this);
    }

    free() { this.#saved = undefined; }
}
disposable(Stream);

function seedHash(module, seed) {
    const word = checked(seed, 'a seed');
    if (module.calls.sketch_seed_hash(word, module.result)) {
        throw new RangeError(`the hash of the seed ${word} is 0, so sketches cannot use it: choose another seed`);
    }
    return module.size & 0xffff;
}

/** The hashes of a module: calls on one input, and streams. */
export function hashesOf(module) {
    const [xxh64, murmur] = [new XxHash64(module), new MurmurHash(module)];

    class Xxh64 extends Stream { constructor(seed) { super(xxh64, seed); } }

    class Murmur128 extends Stream {
        constructor(seed) { super(murmur, seed); }

        digestBytes() {
            this.digest();
            return murmur.bytes();
        }
    }

    return {
        version: VERSION,
        xxh64: (bytes, seed) => xxh64.of(bytes, seed),
        xxh64Hex: (bytes, seed) => xxh64.hex(xxh64.of(bytes, seed)),
        Xxh64,
        murmur128: (bytes, seed) => murmur.of(bytes, seed),
        murmur128Hex: (bytes, seed) => murmur.hex(murmur.of(bytes, seed)),
        murmur128Bytes: (bytes, seed) => { murmur.run(bytes, seed); return murmur.bytes(); },
        Murmur128,
        seedHash: (seed) => seedHash(module, seed),
    };
}
