//! Lookups in a `HashMap` of 2^16 keys under three hashers: `cargo bench`. The maps are timed in turns
//! in each of 51 rounds. The table has the nanoseconds of a lookup, and the median of the rounds'
//! ratios to std's hasher.

use sketch_hash::{BuildMurmur3X64_128, BuildXxh64};
use std::collections::hash_map::RandomState;
use std::collections::HashMap;
use std::hash::{BuildHasher, Hash};
use std::hint::black_box;
use std::time::Instant;

const KEYS: u64 = 1 << 16;
const ROUNDS: usize = 51;

/// A round under one hasher: the nanoseconds of a lookup.
fn round_of<'a, K: Hash + Eq>(
    keys: &'a [K], hasher: impl BuildHasher + 'a,
) -> Box<dyn FnMut() -> f64 + 'a> {
    let mut map = HashMap::with_hasher(hasher);
    map.extend(keys.iter().zip(0_u64..));
    Box::new(move || {
        let start = Instant::now();
        let sum = keys.iter().fold(0_u64, |sum, key| sum.wrapping_add(map[black_box(key)]));
        black_box(sum);
        start.elapsed().as_nanos() as f64 / keys.len() as f64
    })
}

fn median(mut numbers: Vec<f64>) -> f64 {
    numbers.sort_by(f64::total_cmp);
    numbers[numbers.len() / 2]
}

fn compare<K: Hash + Eq>(case: &str, keys: Vec<K>) {
    let mut maps = [
        ("std's DefaultHasher", round_of(&keys, RandomState::new())),
        ("Xxh64", round_of(&keys, BuildXxh64::new(0))),
        ("Murmur3X64_128", round_of(&keys, BuildMurmur3X64_128::new(0))),
    ];
    let mut times = vec![Vec::new(); maps.len()];
    for _ in 0..ROUNDS {
        for (times, (_, round)) in times.iter_mut().zip(&mut maps) {
            times.push(round());
        }
    }
    for (times_of, (name, _)) in times.iter().zip(&maps) {
        let ratios = times_of.iter().zip(&times[0]).map(|(time, base)| time / base).collect();
        println!("| {case} | {name} | {:.1} | {:.2} |", median(times_of.clone()), median(ratios));
    }
}

fn main() {
    println!("| keys | hasher | ns | times std's |\n|---|---|---|---|");
    let numbers = (0..KEYS).map(|n| n.wrapping_mul(0x9E37_79B9_7F4A_7C15));
    compare("u64", numbers.clone().collect());
    compare("u32", numbers.clone().map(|n| n as u32).collect());
    compare("texts of 16 bytes", numbers.clone().map(|n| format!("{n:016x}")).collect());
    compare("texts of 64 bytes", numbers.map(|n| format!("{n:064x}")).collect());
}
