//! Columns of keys, and Bloom filters.

use sketch_hash::{
    murmur3_x64_128, murmur3_x64_128_each, xxh64, xxh64_each, xxh64_each_u64, BloomFilter, Error,
    Number, Offset, Xxh64,
};
use std::fmt::Debug;
use std::sync::Arc;
use std::thread;

const SEED: u64 = u64::MAX - 4;

fn offsets<O: TryFrom<i32, Error: Debug>>(offsets: &[i32]) -> Vec<O> {
    offsets.iter().map(|offset| O::try_from(*offset).unwrap()).collect()
}

fn a_column_equals_single_calls<O: Offset + TryFrom<i32, Error: Debug>>() {
    let (mut x, mut m, mut found) = ([0; 3], [[0; 2]; 3], [true; 3]);
    let (keys, offsets) = ([&b"a0"[..], b"", b"foxes"], offsets::<O>(&[0, 2, 2, 7]));
    xxh64_each(b"a0foxes", &offsets, SEED, &mut x).unwrap();
    murmur3_x64_128_each(b"a0foxes", &offsets, SEED, &mut m).unwrap();
    filter_of_keys().contains_each(b"a0foxes", &offsets, &mut found).unwrap();
    assert_eq!(x, keys.map(|key| xxh64(key, SEED)));
    assert_eq!(m, keys.map(|key| murmur3_x64_128(key, SEED)));
    assert_eq!(found, [true, false, false]);
    let (mut column, mut single) = (filter_of_keys(), filter_of_keys());
    column.insert_each(b"a0foxes", &offsets).unwrap();
    single.extend(keys);
    assert_eq!(column, single);
}

fn a_wrong_offset_has_its_index_and_changes_nothing<
    O: Offset + Debug + TryFrom<i32, Error: Debug>,
>() {
    let (mut filter, before) = (filter_of_keys(), filter_of_keys());
    for (wrong, index) in [(&[][..], 0), (&[0], 1), (&[0, 3], 2), (&[0, 7, 7], 1), (&[3, 2, 6], 1)]
    {
        let (mut x, mut m, mut found) = ([5; 2], [[5; 2]; 2], [true, false]);
        let wrong = offsets::<O>(wrong);
        let error = Err(Error::Offset { index });
        assert_eq!(xxh64_each(b"foxdog", &wrong, SEED, &mut x), error, "{wrong:?}");
        assert_eq!(murmur3_x64_128_each(b"foxdog", &wrong, SEED, &mut m), error, "{wrong:?}");
        assert_eq!(filter.contains_each(b"foxdog", &wrong, &mut found), error, "{wrong:?}");
        if wrong.len() == 3 {
            assert_eq!(filter.insert_each(b"foxdog", &wrong), error, "{wrong:?}");
        }
        assert_eq!((&filter, x, m, found), (&before, [5; 2], [[5; 2]; 2], [true, false]));
    }
}

fn offsets_are_of_a_type<O: Offset + Debug + TryFrom<i32, Error: Debug>>() {
    a_column_equals_single_calls::<O>();
    a_wrong_offset_has_its_index_and_changes_nothing::<O>();
}

#[test]
fn offsets_are_of_each_type() {
    offsets_are_of_a_type::<u32>();
    offsets_are_of_a_type::<i32>();
    offsets_are_of_a_type::<u64>();
    offsets_are_of_a_type::<i64>();
}

#[cfg(target_pointer_width = "64")]
#[test]
fn a_negative_offset_is_an_error_in_keys_past_32_bits() {
    let zeros = vec![0; (1 << 32) + 37]; // never written, so they take no memory
    let (mut filter, mut found) = (BloomFilter::with_len(32).unwrap(), [true]);
    for (offsets, index) in [([i32::MIN, i32::MIN + 3], 0), ([0, -1], 1)] {
        let error = Err(Error::Offset { index });
        assert_eq!(xxh64_each(&zeros, &offsets, SEED, &mut [0]), error);
        assert_eq!(murmur3_x64_128_each(&zeros, &offsets, SEED, &mut [[0; 2]]), error);
        assert_eq!(filter.insert_each(&zeros, &offsets), error);
        assert_eq!(filter.contains_each(&zeros, &offsets, &mut found), error);
    }
    let error = Err(Error::Offset { index: 1 });
    assert_eq!(xxh64_each(&zeros, &[0_i64, -1], SEED, &mut [0]), error);
    let last = [i32::MAX - 1, i32::MAX];
    assert_eq!(xxh64_each(&zeros, &last, SEED, &mut [0]), Ok(()));
}

/// The zeros are never written, so they take no memory.
#[cfg(target_pointer_width = "64")]
#[test]
fn a_length_or_an_offset_may_be_past_32_bits() {
    let (zeros, mut out) = (vec![0; (1 << 32) + 37], [0]);
    let mut stream = Xxh64::new(u64::MAX);
    stream.update(&zeros);
    assert_eq!([stream.digest(), xxh64(&zeros, u64::MAX)], [0x9ae5_8395_6774_714e; 2]);
    xxh64_each(&zeros, &[(1_u64 << 32) + 32, (1 << 32) + 37], SEED, &mut out).unwrap();
    assert_eq!(out, [xxh64(&[0; 5], SEED)]);
}

#[test]
fn only_offsets_of_keys_are_read() {
    let mut out = [5; 2];
    xxh64_each(b"fox", &[0_u32, 3, 99], SEED, &mut out[..1]).unwrap();
    assert_eq!(out, [xxh64(b"fox", SEED), 5]);
    assert_eq!(xxh64_each(b"fox", &[] as &[u32], SEED, &mut []), Ok(()));
    assert_eq!(murmur3_x64_128_each(b"fox", &[3_u64], SEED, &mut []), Ok(()));
}

// ---- Bloom filters

/// A filter of one block with the texts a0 to a9, as Arrow writes it.
const OF_ARROW: [u8; 32] = [
    200, 1, 80, 20, 64, 68, 8, 109, 6, 37, 4, 67, 144, 80, 96, 32, 8, 132, 43, 33, 0, 5, 99, 65, 2,
    0, 224, 44, 64, 78, 96, 4,
];
const HEADER_OF_1024: [u8; 16] =
    [0x15, 0x80, 0x10, 0x1c, 0x1c, 0, 0, 0x1c, 0x1c, 0, 0, 0x1c, 0x1c, 0, 0, 0];

fn keys() -> [String; 10] {
    std::array::from_fn(|n| format!("a{n}"))
}

fn filter_of_keys() -> BloomFilter {
    let mut filter = BloomFilter::with_len(1024).unwrap();
    filter.extend(keys());
    filter
}

#[test]
fn the_bytes_are_those_of_arrow() {
    let mut filter = BloomFilter::with_len(32).unwrap();
    filter.extend(keys());
    assert_eq!(filter.as_bytes(), OF_ARROW);
    assert!(keys().iter().all(|key| filter.contains(key.as_bytes())) && !filter.contains(b"fox"));
}

#[test]
fn a_filter_for_keys_has_at_most_128_mib() {
    for (keys, one_in, bytes) in [
        (0, 100, Some(32)),
        (100_000_000, 100, Some(128 << 20)),
        (1_000_000_000, 100, None),
        (u64::MAX, u64::MAX, None),
    ] {
        assert_eq!(BloomFilter::bytes_for(keys, one_in), bytes);
        let filter = BloomFilter::for_keys(keys, one_in).map(|filter| filter.as_bytes().len());
        assert_eq!(filter, bytes.ok_or(Error::TooManyKeys));
    }
}

#[test]
fn a_wrong_length_is_an_error() {
    for length in [0, 1, 31, 33, (1_u64 << 37) as usize, usize::MAX, usize::MAX - 30] {
        assert_eq!(BloomFilter::with_len(length).unwrap_err(), Error::Length, "{length}");
    }
    for length in [0, 31, 33] {
        assert_eq!(BloomFilter::from_bytes(vec![0; length]).unwrap_err(), Error::Length);
    }
}

#[test]
fn the_bytes_may_be_borrowed_boxed_or_shared() {
    let mut bytes = [0; 96];
    BloomFilter::from_bytes(&mut bytes[32..64]).unwrap().extend(keys());
    assert_eq!(bytes, [[0; 32], OF_ARROW, [0; 32]].as_flattened());
    let mut boxed = BloomFilter::from_bytes(Box::<[u8]>::from([0; 32])).unwrap();
    boxed.extend(keys());
    let shared = BloomFilter::from_bytes(Arc::<[u8]>::from(boxed.into_inner())).unwrap();
    let of_another_thread = shared.clone();
    assert!(thread::spawn(move || of_another_thread.contains(b"a0")).join().unwrap());
    assert_eq!(shared.as_bytes(), OF_ARROW);
}

fn is_its_plain_bytes<N: Number>(number: N, bytes: &[u8], other: N) {
    let (mut column, mut single) =
        (BloomFilter::with_len(1024).unwrap(), BloomFilter::with_len(1024).unwrap());
    column.insert_each_number(&[number, number]).unwrap();
    single.insert(bytes);
    assert_eq!(column, single);
    let mut found = [false, true];
    column.contains_each_number(&[number, other], &mut found).unwrap();
    assert_eq!(found, [true, false]);
}

#[test]
fn a_number_of_each_type_is_its_plain_bytes() {
    is_its_plain_bytes(u32::MAX, &[255; 4], 5);
    is_its_plain_bytes(-5_i32, &(-5_i32).to_le_bytes(), 5);
    is_its_plain_bytes(-0.0_f32, &[0, 0, 0, 128], 0.0);
    is_its_plain_bytes(u64::MAX, &[255; 8], 5);
    is_its_plain_bytes(-5_i64, &(-5_i64).to_le_bytes(), 5);
    is_its_plain_bytes(-0.0_f64, &[0, 0, 0, 0, 0, 0, 0, 128], 0.0);
}

#[test]
fn missing_values_are_an_error() {
    let (filter, mut found, mut out) = (filter_of_keys(), [true, false, true], [5; 3]);
    assert_eq!(xxh64_each_u64(&[7, 8], SEED, &mut out), Err(Error::Count));
    assert_eq!(filter.contains_each_number(&[1, 2], &mut found), Err(Error::Count));
    assert_eq!(filter.contains_each_hash(&[1, 2], &mut found), Err(Error::Count));
    let missing = filter.contains_each(b"", &[0_u32, 0], &mut found);
    assert_eq!(missing, Err(Error::Offset { index: 2 }));
    assert_eq!((found, out), ([true, false, true], [5; 3]));
}

#[test]
fn filters_of_different_lengths_are_not_merged() {
    let mut filter = filter_of_keys();
    let longer = BloomFilter::from_bytes([255; 2048]).unwrap();
    assert_eq!(filter.merge(&longer), Err(Error::Length));
    assert_eq!(filter, filter_of_keys());
    assert_ne!(filter, longer);
}

#[test]
fn a_filter_in_a_file_is_a_header_and_the_bytes() {
    let filter = filter_of_keys();
    let file = filter.to_parquet().unwrap();
    assert_eq!(file, [&HEADER_OF_1024, filter.as_bytes()].concat());
    let longer = [&b"PAR1"[..], &file, b"PAR1"].concat();
    assert_eq!(BloomFilter::from_parquet(&longer[4..]).unwrap(), filter);
    assert_eq!(BloomFilter::from_parquet(&longer).unwrap_err(), Error::Header);
    assert_eq!(BloomFilter::from_parquet(&file[..15]).unwrap_err(), Error::Header);
    assert_eq!(BloomFilter::from_parquet(&file[..1039]).unwrap_err(), Error::Truncated);
}

#[test]
fn an_error_has_the_index() {
    let error: Box<dyn std::error::Error> = Box::new(Error::Offset { index: usize::MAX });
    assert!(error.to_string().contains(&format!("at {} is missing", usize::MAX)));
}

#[test]
fn debug_shows_the_length() {
    assert_eq!(format!("{:?}", filter_of_keys()), "BloomFilter { len: 1024, .. }");
}
