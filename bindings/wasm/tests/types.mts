// Uses each type of sketch_hash.d.mts. It is compiled by tsc, and never run.
import { load } from './sketch_hash.mjs';
import type { BloomFilter, Input, Library, MurmurStream, Offsets, Stream } from './sketch_hash.mjs';

const library: Library = await load();
const input: Input = new Uint8Array(8);
const offsets: Offsets = Uint32Array.of(0, 3, 6);
const hashes: bigint[] = [library.xxh64(input), library.murmur128(new ArrayBuffer(0), 7)];
const ofSeed: number = library.seedHash(9001n);
const columns: BigUint64Array[] = [
    library.xxh64Each(input, offsets, 0n),
    library.xxh64EachU64(new BigInt64Array(2)),
    library.murmur128Each(input, BigUint64Array.of(0n)),
];
const texts: string[] = [library.version, library.xxh64Hex(input), library.murmur128Hex(input, 1n)];
const sixteen: Uint8Array[] = [library.murmur128Bytes(input), new library.Murmur128().digestBytes()];
const stream: Stream = new library.Xxh64(1).update(input).copy().reset();
const digest: bigint = stream.reset(stream.seed).digest();
const digits: string = stream.hexDigest();
const murmur: MurmurStream = new library.Murmur128(1n).update(input);
// The calls of a subclass return the subclass.
class Named extends library.Xxh64 { own = ''; }
const own: string = new Named().update(input).copy().reset().own;

const filter: BloomFilter = new library.BloomFilter(32).add('fox').add(input).addHash(hashes[0]).addEach(input, offsets)
    .addEachNumber(new Float64Array(2)).addEachHash(columns[0]).merge(library.BloomFilter.forKeys(1000, 100n));
const found: boolean[] = [filter.has('fox'), filter.has(input), filter.hasHash(7n)];
let each: Uint8Array = filter.hasEach(input, offsets);
each = filter.hasEachNumber(offsets);
each = filter.hasEachHash(columns[0]);
const lengths: number[] = [filter.length, library.BloomFilter.bytesFor(1, 2)];
let read: BloomFilter = library.BloomFilter.fromParquet(filter.toParquet());
read = library.BloomFilter.fromBytes(filter.fold().foldTo(100).toBytes());
const freed: void[] = [read.free(), stream.free()];
const disposed: { [Symbol.dispose](): void }[] = [read, stream];

// @ts-expect-error: a string must be encoded
library.xxh64('fox');
// @ts-expect-error: a seed is a number or a bigint
library.xxh64(input, '0');
// @ts-expect-error: offsets are whole numbers of 32 or 64 bits
library.xxh64Each(input, new Uint16Array(2));
// @ts-expect-error: the seed of a stream changes by a reset alone
new library.Xxh64().seed = 1n;
// @ts-expect-error: a hash is a word of 64 bits
filter.addEachHash(new Float64Array(2));
// @ts-expect-error: a length does not change
filter.length = 64;
