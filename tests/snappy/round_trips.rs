//! Texts that are stored and read again.
use super::texts::{encoded, half_text, is_read_again, random_text, repeating_text};
use leveldb_base::error::Result;
use support::Random;

const LENGTHS: &[usize] = &[
    0, 1, 2, 3, 4, 5, 7, 8, 11, 12, 13, 59, 60, 61, 62, 63, 64, 65, 66, 67, 68, 69, 127, 128, 129,
    255, 256, 257, 258, 259, 2047, 2048, 2049, 4096, 16384, 65535, 65536, 65537, 65540, 131_072,
    200_000,
];

#[test]
fn random_texts(rt: HostRuntime) -> Result<()> {
    let mut random = Random(1);
    for length in LENGTHS {
        for bytes in [2, 4, 26, 256] {
            let text = random_text(rt.alloc(), &mut random, *length, bytes)?;
            assert!(rt; is_read_again(rt.alloc(), &text)?, "{length} {bytes}");
        }
    }
    Ok(())
}

#[test]
fn half_compressible_texts(rt: HostRuntime) -> Result<()> {
    let mut random = Random(2);
    for length in LENGTHS {
        for run in [1, 4, 5, 50, 300, 3000, 40_000] {
            let text = half_text(rt.alloc(), &mut random, *length, run)?;
            assert!(rt; is_read_again(rt.alloc(), &text)?, "{length} {run}");
        }
    }
    Ok(())
}

#[test]
fn repetitive_texts(rt: HostRuntime) -> Result<()> {
    let mut random = Random(3);
    for length in LENGTHS {
        for period in [
            1, 2, 3, 4, 5, 7, 8, 9, 15, 16, 17, 31, 63, 64, 65, 200, 2047, 2048,
        ] {
            let bytes = random_text(rt.alloc(), &mut random, period, 256)?;
            let text = repeating_text(rt.alloc(), &bytes, *length)?;
            assert!(rt; is_read_again(rt.alloc(), &text)?, "{length} {period}");
        }
    }
    Ok(())
}

#[test]
fn texts_of_a_mebibyte(rt: HostRuntime) -> Result<()> {
    let mut random = Random(4);
    let length = 1 << 20;
    let fresh = random_text(rt.alloc(), &mut random, length, 256)?;
    assert!(rt; is_read_again(rt.alloc(), &fresh)?);
    let half = half_text(rt.alloc(), &mut random, length, 50)?;
    assert!(rt; is_read_again(rt.alloc(), &half)?);
    let same = repeating_text(rt.alloc(), b"a", length)?;
    assert!(rt; is_read_again(rt.alloc(), &same)?);
    Ok(())
}

// What repeats is stored as copies: three bytes for 64 of a long run, and for half of a text that
// is half fresh about as many bytes as are fresh.
#[test]
fn texts_get_shorter(rt: HostRuntime) -> Result<()> {
    let same = repeating_text(rt.alloc(), b"a", 65_536)?;
    assert!(rt; encoded(rt.alloc(), &same)?.len() <= 3 + 2 + 3 * 1024 + 3);
    let half = half_text(rt.alloc(), &mut Random(5), 4096, 50)?;
    assert!(rt; encoded(rt.alloc(), &half)?.len() <= 2500);
    Ok(())
}
