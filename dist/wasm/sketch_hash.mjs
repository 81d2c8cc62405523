// sketch_hash: XXH64, MurmurHash3 x64 128 and the Bloom filter of Apache Parquet, from functions that are proved, for
// browsers and Node. Licence: Apache-2.0. sketch_hash.d.mts describes each call.

import { filtersOf } from './filters.mjs';
import { hashesOf, moduleFrom } from './hashes.mjs';

export async function load(source) {
    const module = await moduleFrom(source);
    return { ...hashesOf(module), ...filtersOf(module) };
}
