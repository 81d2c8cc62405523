//! The hashes, of one call and of streams.

use sketch_hash::{
    murmur3_x64_128, seed_hash, xxh64, xxh64_u64, BuildMurmur3X64_128, BuildXxh64, Error,
    Murmur3X64_128, Xxh64,
};
use std::hash::{BuildHasher, Hasher};

const FOX: &[u8] = b"The quick brown fox jumps over the lazy dog";
const SEED: u64 = 0x1122_3344_5566_7788;

/// Random numbers, the same in each run.
struct Rng(u64);

impl Rng {
    fn word(&mut self) -> u64 {
        self.0 = self.0.wrapping_mul(6364136223846793005).wrapping_add(1442695040888963407);
        self.0.rotate_left(32)
    }

    fn below(&mut self, limit: usize) -> usize {
        (self.word() % limit as u64) as usize
    }

    fn bytes(&mut self, count: usize) -> Vec<u8> {
        (0..count).map(|_| self.word() as u8).collect()
    }
}

#[test]
fn the_library_is_of_this_version() {
    let parts = env!("CARGO_PKG_VERSION").split('.').map(|part| part.parse::<u32>().unwrap());
    assert_eq!(sketch_hash::version(), parts.fold(0, |version, part| 100 * version + part));
}

#[test]
fn hashes_are_the_published_ones() {
    let short: &[u8] = &[0xa1, 0xd8, 0x2b];
    for (name, input, seed, of_xxh64, of_murmur) in [
        ("empty", &b""[..], 0, 0xef46_db37_51d8_e999, [0, 0]),
        ("fox", FOX, 0, 0x0b24_2d36_1fda_71bc, [0xe34b_bc7b_bc07_1b6c, 0x7a43_3ca9_c49a_9347]),
        (
            "a seed of 64 bits",
            short,
            0xcdde_8d51_6301_bbfc,
            0x9378_00ca_51e4_a6d8,
            [0x72d4_dcbf_d199_ad6f, 0x5170_f4d9_e50b_b254],
        ),
    ] {
        assert_eq!(xxh64(input, seed), of_xxh64, "{name}");
        assert_eq!(murmur3_x64_128(input, seed), of_murmur, "{name}");
    }
}

/// As DataSketches computes them.
#[test]
fn seed_hashes_are_those_of_datasketches() {
    let seeds =
        [(0, 50123), (1, 50250), (2, 49320), (3, 35596), (42, 32248), (123, 1462), (9001, 37836)];
    for (seed, hash) in seeds {
        assert_eq!(seed_hash(seed), Ok(hash));
    }
    assert_eq!(seed_hash(50541), Err(Error::Seed));
    assert!(Error::Seed.to_string().contains("choose another seed"));
}

/// Every second stream is resumed from a checkpoint after each piece.
#[test]
fn a_split_input_has_the_hash_of_one_call() {
    let mut rng = Rng(1);
    for round in 0..20_000 {
        let length = rng.below(if round % 50 == 0 { 3000 } else { 100 });
        let (bytes, seed) = (rng.bytes(length), rng.word());
        let (mut x, mut m) = (Xxh64::new(seed), Murmur3X64_128::new(seed));
        let mut end = 0;
        while end < length {
            let begin = end;
            end += 1 + rng.below(length - begin);
            x.update(&bytes[begin..end]);
            m.update(&bytes[begin..end]);
            if round % 2 == 0 {
                x = Xxh64::from_bytes(&x.to_bytes());
                m = Murmur3X64_128::from_bytes(&m.to_bytes());
            }
            assert_eq!(x.digest(), xxh64(&bytes[..end], seed));
            assert_eq!(m.digest(), murmur3_x64_128(&bytes[..end], seed));
        }
    }
}

#[test]
fn any_checkpoint_is_safe() {
    let mut rng = Rng(3);
    for _ in 0..10_000 {
        let (mut saved_x, saved_m) = (rng.bytes(80), rng.bytes(40));
        saved_x[41..48].fill(rng.below(2) as u8); // of a short stream too
        let mut x = Xxh64::from_bytes(saved_x[..].try_into().unwrap());
        let mut m = Murmur3X64_128::from_bytes(saved_m[..].try_into().unwrap());
        let count = rng.below(70);
        let bytes = rng.bytes(count);
        x.update(&bytes);
        m.update(&bytes);
        assert_eq!(Xxh64::from_bytes(&x.to_bytes()).digest(), x.digest());
        assert_eq!(Murmur3X64_128::from_bytes(&m.to_bytes()).digest(), m.digest());
    }
}

#[test]
fn streams_are_equal_if_seed_and_bytes_are() {
    for cut in 0..=FOX.len() {
        let (mut x, mut m) = (Xxh64::new(7), Murmur3X64_128::new(7));
        let (mut in_pieces_x, mut in_pieces_m) = (x.clone(), m.clone());
        x.update(FOX);
        m.update(FOX);
        in_pieces_x.update(&FOX[..cut]);
        in_pieces_m.update(&FOX[..cut]);
        assert_eq!((x == in_pieces_x, m == in_pieces_m), (cut == FOX.len(), cut == FOX.len()));
        in_pieces_x.update(&FOX[cut..]);
        in_pieces_m.update(&FOX[cut..]);
        assert_eq!((x, m), (in_pieces_x, in_pieces_m));
    }
    assert_ne!(Xxh64::new(7), Xxh64::new(8));
}

#[test]
fn murmur_finishes_with_its_first_word() {
    let mut hasher = BuildMurmur3X64_128::new(7).build_hasher();
    hasher.write(FOX);
    assert_eq!(hasher.finish(), murmur3_x64_128(FOX, 7)[0]);
}

#[test]
fn a_number_is_hashed_as_its_bytes() {
    let value = 0x0123_4567_89ab_cdef_u64;
    assert_eq!(xxh64_u64(value, SEED), xxh64(&value.to_le_bytes(), SEED));
    let build = BuildXxh64::new(SEED);
    assert_eq!(build.hash_one(value), xxh64_u64(value, SEED));
    assert_eq!(build.hash_one(-5_i16), xxh64(&(-5_i16).to_le_bytes(), SEED));
    assert_eq!(build.hash_one(5_u128), xxh64(&5_u128.to_le_bytes(), SEED));
}

#[test]
fn debug_shows_the_length() {
    let (mut x, mut m) = (Xxh64::new(7), Murmur3X64_128::new(7));
    x.update(FOX);
    m.update(FOX);
    assert_eq!(format!("{x:?}"), "Xxh64 { seed: 7, length: 43, .. }");
    assert_eq!(format!("{m:?}"), "Murmur3X64_128 { length: 43, .. }");
}

#[cfg(feature = "std")]
#[test]
fn a_stream_is_written_to() {
    let (mut x, mut m) = (Xxh64::new(7), Murmur3X64_128::new(7));
    std::io::copy(&mut &FOX[..], &mut x).unwrap();
    std::io::copy(&mut &FOX[..], &mut m).unwrap();
    assert_eq!((x.digest(), m.digest()), (xxh64(FOX, 7), murmur3_x64_128(FOX, 7)));
}
