//! The library's two functions against the second program's, on inputs chosen at every edge and on random ones.
use card_store::{address, code, NO_ADDRESS};
use reference::random::Random;
use reference::rules as second;

/// The five sizes of a table.
const SIZES: [u32; 5] = [16, 32, 64, 128, 256];

fn same_code(bytes: &[u8]) {
    let shown = &bytes[..bytes.len().min(40)];
    assert_eq!(code(bytes), second::code(bytes), "{} bytes, starting {shown:?}", bytes.len());
}

fn same_address(code: u32, maxp: u32, p: u32) {
    assert_eq!(address(code, maxp, p), second::address(code, maxp, p), "code {code}, maxp {maxp}, p {p}");
}

/// Codes at which an address may change, in a table of this size, and a random one.
fn edge_codes(maxp: u32, p: u32, random: &mut Random) -> Vec<u32> {
    let mut codes = vec![0, 1, 55, 1_639, 53_911, 1 << 31, u32::MAX - 1, u32::MAX, random.word()];
    for edge in [p, maxp, maxp.wrapping_add(p), maxp.wrapping_mul(2), maxp.wrapping_neg()] {
        codes.extend([edge.wrapping_sub(1), edge, edge.wrapping_add(1)]);
    }
    codes
}

/// p around 0, around maxp, where maxp + p passes 256, where it passes 2^32, and far off.
fn edge_ps(maxp: u32) -> Vec<u32> {
    let mut ps = vec![0, 1, 2, 1 << 31, u32::MAX - 1, u32::MAX];
    for edge in [maxp, 256_u32.wrapping_sub(maxp), maxp.wrapping_neg()] {
        ps.extend([edge.wrapping_sub(1), edge, edge.wrapping_add(1)]);
    }
    ps
}

fn same_at_edges(maxp: u32, random: &mut Random) {
    for p in edge_ps(maxp) {
        for code in edge_codes(maxp, p, random) {
            same_address(code, maxp, p);
        }
    }
}

#[test]
fn marked_examples() {
    assert_eq!(code(b"7"), 55);
    assert_eq!(code(b"07"), 1_639);
    assert_eq!(code(b"007"), 53_911);
    assert_eq!(address(55, 16, 7), 7);
    assert_eq!(address(55, 16, 8), 23);
    assert_eq!(address(1_639, 16, 8), 7);
    assert_eq!(address(53_911, 16, 8), 23);
    assert_eq!(address(53_911, 256, 0), 151);
    assert_eq!(address(53_911, 24, 0), NO_ADDRESS);
    assert_eq!(address(53_911, 256, 1), NO_ADDRESS);
}

#[test]
fn code_of_nothing_is_0() {
    assert_eq!(code(&[]), 0);
    same_code(&[]);
}

#[test]
fn codes_of_all_one_and_two_bytes() {
    for first in 0..=255 {
        same_code(&[first]);
        for last in 0..=255 {
            same_code(&[first, last]);
        }
    }
}

#[test]
fn codes_of_all_256_bytes_at_once() {
    let rising: Vec<u8> = (0..=255).collect();
    let falling: Vec<u8> = rising.iter().rev().copied().collect();
    same_code(&rising);
    same_code(&falling);
}

#[test]
fn codes_of_long_slices() {
    let mut random = Random::new(0x5eed_0001);
    for length in [4_095, 4_096, 65_536, 1_000_003] {
        same_code(&vec![0; length]);
        same_code(&vec![255; length]);
        same_code(&random.bytes(length));
    }
}

#[test]
fn codes_of_random_slices() {
    let mut random = Random::new(0x5eed_0002);
    for length in 0..=300 {
        for _ in 0..20 {
            same_code(&random.bytes(length));
        }
    }
}

#[test]
fn a_code_reads_its_slice_alone() {
    let mut random = Random::new(0x5eed_0003);
    let inner = random.bytes(33);
    for start in 0..20 {
        let around = [random.bytes(start), inner.clone(), random.bytes(20)].concat();
        assert_eq!(code(&around[start..start + inner.len()]), second::code(&inner), "at {start}");
    }
}

#[test]
fn addresses_in_every_state() {
    let mut random = Random::new(0x5eed_0004);
    for state in second::states() {
        for code in 0..=1_024 {
            same_address(code, state.maxp, state.p);
        }
        for code in edge_codes(state.maxp, state.p, &mut random) {
            same_address(code, state.maxp, state.p);
        }
    }
}

#[test]
fn addresses_at_the_edges_of_the_sizes() {
    let mut random = Random::new(0x5eed_0005);
    for maxp in SIZES {
        same_at_edges(maxp, &mut random);
        same_at_edges(maxp - 1, &mut random);
        same_at_edges(maxp + 1, &mut random);
    }
}

#[test]
fn addresses_of_sizes_that_are_none() {
    let mut random = Random::new(0x5eed_0006);
    for maxp in [0, 1, 2, 4, 8, 24, 48, 96, 192, 240, 512, 1_024, 1 << 16, 1 << 31, u32::MAX - 15, u32::MAX] {
        same_at_edges(maxp, &mut random);
        for p in edge_ps(maxp) {
            assert_eq!(address(random.word(), maxp, p), NO_ADDRESS, "maxp {maxp}, p {p}");
        }
    }
}

#[test]
fn addresses_of_all_small_pairs() {
    let mut random = Random::new(0x5eed_0007);
    for maxp in 0..=520 {
        for p in 0..=260 {
            same_address(random.word(), maxp, p);
        }
    }
}

#[test]
fn addresses_of_random_numbers() {
    let mut random = Random::new(0x5eed_0008);
    for _ in 0..20_000 {
        same_address(random.word(), random.word(), random.word());
        let maxp = SIZES[random.below(SIZES.len())];
        same_address(random.word(), maxp, random.word() % (maxp + 2));
    }
}
