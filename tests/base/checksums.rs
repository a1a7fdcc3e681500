//! Checksums of catalogues, masked ones, and those of texts in pieces and of long ones beside a
//! slow one, bit by bit.
use leveldb_base::crc::{crc32, digest, mask_crc, unmask_crc};

// Bit by bit.
fn shifted(mut register: u32) -> u32 {
    for _ in 0..8 {
        let half = register >> 1;
        register = if register & 1 == 1 {
            half ^ 0x82f6_3b78
        } else {
            half
        };
    }
    register
}

fn slow_crc32(data: &[u8]) -> u32 {
    let mut register = 0xffff_ffff;
    for byte in data {
        register = shifted(register ^ u32::from(*byte));
    }
    register ^ 0xffff_ffff
}

fn sample() -> [u8; 100] {
    let mut text = [0; 100];
    for i in 0..100u8 {
        text[i as usize] = i ^ (i << 3);
    }
    text
}

// Bytes in no order.
fn long_sample() -> [u8; 10000] {
    let mut text = [0; 10000];
    let mut state = 1u32;
    for byte in &mut text {
        state = state.wrapping_mul(1_664_525).wrapping_add(1_013_904_223);
        *byte = (state >> 24) as u8;
    }
    text
}

// The first two are iSCSI's examples, and the third is what catalogues of checksums give.
#[test]
fn known_sums(rt: HostRuntime) {
    let sums = [
        crc32(&[0; 32]),
        crc32(&[0xff; 32]),
        crc32(b"123456789"),
        crc32(b""),
    ];
    assert!(rt; sums == [0x8a91_36aa, 0x62a8_ab43, 0xe306_9283, 0]);
}

#[test]
fn masks(rt: HostRuntime) {
    assert!(rt; mask_crc(0xe306_9283) == 0xc78a_b0e5);
    assert!(rt; unmask_crc(0xc78a_b0e5) == 0xe306_9283);
}

#[test]
fn every_cut_gives_the_sum_of_the_whole(rt: HostRuntime) {
    let text = sample();
    let whole = slow_crc32(&text);
    for cut in 0..101 {
        let mut digest = digest();
        digest.update(&text[..cut]);
        digest.update(&text[cut..]);
        assert!(rt; digest.finalize() == whole, "cut at {cut}");
    }
}

#[test]
fn every_length_agrees_with_the_bits(rt: HostRuntime) {
    let text = sample();
    for length in 0..41 {
        let cut = &text[..length];
        assert!(rt; crc32(cut) == slow_crc32(cut), "length {length}");
    }
}

// A text of 1280 bytes or more is divided first, 4608 of them at a time.
#[test]
fn every_long_text_agrees_with_the_bits(rt: HostRuntime) {
    let text = long_sample();
    let mut register = 0xffff_ffff;
    for length in 0..10000 {
        let cut = &text[..length];
        assert!(rt; crc32(cut) == register ^ 0xffff_ffff, "length {length}");
        register = shifted(register ^ u32::from(text[length]));
    }
}

#[test]
fn a_long_text_in_two_pieces_gives_the_sum_of_the_whole(rt: HostRuntime) {
    let text = long_sample();
    let whole = slow_crc32(&text);
    for step in 0..200 {
        let cut = 50 * step + step % 17;
        let mut digest = digest();
        digest.update(&text[..cut]);
        digest.update(&text[cut..]);
        assert!(rt; digest.finalize() == whole, "cut at {cut}");
    }
}
