//! Compares the samples with what the hashers and values of DataSketches' Rust component answer. `run`
//! brings the files of both here.

mod answers;
mod error;
mod hash;

use error::ErrorKind;
use hash::value::{natural_extend, raw_bytes, sign_extend};
use hash::{MurmurHash3X64128, XxHash64, compute_seed_hash};
use std::fmt::Debug;
use std::hash::{Hash, Hasher};
use std::str::FromStr;

fn main() {
    for line in answers::ANSWERS.lines() {
        let (question, answer) = line.split_once(" = ").unwrap();
        let words: Vec<_> = question.split(' ').collect();
        let results: Vec<_> = answer_to(&words).iter().map(|word| format!("{word:x}")).collect();
        assert_eq!(results.join(" "), answer, "{question}");
    }
    println!("{} samples, each answered alike", answers::ANSWERS.lines().count());
}

fn answer_to(words: &[&str]) -> Vec<u64> {
    match *words {
        ["stream", seed, cuts, hex] => stream(parse(seed), cuts, &from_hex(hex)),
        ["number", kind, digits] => {
            let mut murmur = MurmurHash3X64128::with_seed(7);
            let mut xxh64 = XxHash64::with_seed(7);
            write(&mut murmur, kind, digits);
            write(&mut xxh64, kind, digits);
            vec![murmur.finish(), xxh64.finish()]
        }
        ["raw", "slice", hex] => vec![hash_of(raw_bytes::from_slice(&from_hex(hex)))],
        ["raw", "str", hex] => vec![hash_of(raw_bytes::from_str(std::str::from_utf8(&from_hex(hex)).unwrap()))],
        ["seed_hash", seed] => {
            let Ok(hash) = compute_seed_hash(parse(seed), ErrorKind::InvalidArgument) else {
                panic!("{seed} has no seed hash");
            };
            vec![hash.into()]
        }
        [strategy, kind, digits] => vec![value(strategy, kind, digits)],
        _ => panic!("no question: {words:?}"),
    }
}

fn stream(seed: u64, cuts: &str, bytes: &[u8]) -> Vec<u64> {
    let mut murmur = MurmurHash3X64128::with_seed(seed);
    let mut xxh64 = XxHash64::with_seed(seed);
    let mut start = 0;
    let cuts = cuts.split(',').filter(|cut| *cut != "-").map(parse::<usize>);
    for end in cuts.chain([bytes.len()]) {
        murmur.write(&bytes[start..end]);
        xxh64.write(&bytes[start..end]);
        start = end;
    }
    let (h1, h2) = murmur.finish128();
    vec![h1, h2, xxh64.finish()]
}

fn write(hasher: &mut impl Hasher, kind: &str, digits: &str) {
    match kind {
        "u8" => hasher.write_u8(parse(digits)),
        "i8" => hasher.write_i8(parse(digits)),
        "u16" => hasher.write_u16(parse(digits)),
        "i16" => hasher.write_i16(parse(digits)),
        "u32" => hasher.write_u32(parse(digits)),
        "i32" => hasher.write_i32(parse(digits)),
        "u64" => hasher.write_u64(parse(digits)),
        "i64" => hasher.write_i64(parse(digits)),
        _ => panic!("no type: {kind}"),
    }
}

fn value(strategy: &str, kind: &str, digits: &str) -> u64 {
    match (strategy, kind) {
        ("natural", "u8") => hash_of(natural_extend::from_u8(parse(digits))),
        ("natural", "i8") => hash_of(natural_extend::from_i8(parse(digits))),
        ("natural", "u16") => hash_of(natural_extend::from_u16(parse(digits))),
        ("natural", "i16") => hash_of(natural_extend::from_i16(parse(digits))),
        ("natural", "u32") => hash_of(natural_extend::from_u32(parse(digits))),
        ("natural", "i32") => hash_of(natural_extend::from_i32(parse(digits))),
        ("sign", "u8") => hash_of(sign_extend::from_u8(parse(digits))),
        ("sign", "i8") => hash_of(sign_extend::from_i8(parse(digits))),
        ("sign", "u16") => hash_of(sign_extend::from_u16(parse(digits))),
        ("sign", "i16") => hash_of(sign_extend::from_i16(parse(digits))),
        ("sign", "u32") => hash_of(sign_extend::from_u32(parse(digits))),
        ("sign", "i32") => hash_of(sign_extend::from_i32(parse(digits))),
        ("plain", "u32") => hash_of(parse::<u32>(digits)),
        ("plain", "i32") => hash_of(parse::<i32>(digits)),
        ("plain", "u64") => hash_of(parse::<u64>(digits)),
        ("plain", "i64") => hash_of(parse::<i64>(digits)),
        _ => panic!("no value: {strategy} {kind}"),
    }
}

/// The hash of a value by the default MurmurHash3, whose seed is 9001.
fn hash_of(value: impl Hash) -> u64 {
    let mut hasher = MurmurHash3X64128::default();
    value.hash(&mut hasher);
    hasher.finish()
}

fn from_hex(hex: &str) -> Vec<u8> {
    let digits = hex.trim_start_matches('-');
    let places = (0..digits.len()).step_by(2);
    places.map(|at| u8::from_str_radix(&digits[at..at + 2], 16).unwrap()).collect()
}

fn parse<T: FromStr<Err: Debug>>(digits: &str) -> T {
    digits.parse().unwrap()
}
