//! Manifests that are read in pieces: of several blocks, with short reads, with reads that fail,
//! and with many edits.
use super::recovers::{BEGINNING, numbers_of, put_store};
use super::stored::Stored;
use bytes::Bytes;
use leveldb_base::error::{Result, StatusCode};
use leveldb_base::key_types::LookupKey;
use leveldb_base::types::{FileMetaData, FileNum};
use leveldb_disks::mem_env::{MemEnv, RecordEnv};
use leveldb_env::env::Env;
use leveldb_mem::log::LogWriter;
use leveldb_version::version_edit::VersionEdit;
use std::alloc::Global;
use std::process::Abort;
use support::{ShortReads, failed_with};

/// What one read asks for at most.
const PIECE: usize = 4096;

/// A file of level 0 whose two keys have this length.
fn file_of(alloc: Global, num: FileNum, length: usize) -> Result<FileMetaData> {
    let mut user = Vec::new(alloc);
    user.resize(length, b'k')?;
    let key = LookupKey::new(alloc, user.as_slice(), 1)?;
    Ok(FileMetaData {
        allowed_seeks: 0,
        num,
        size: 1000,
        smallest: Bytes::copy_from_slice(alloc, key.internal_key())?,
        largest: Bytes::copy_from_slice(alloc, key.internal_key())?,
    })
}

/// The edit that adds this file, and deletes the one that was added so many numbers before.
fn edit_of(alloc: Global, num: FileNum, live: u64, length: usize) -> Result<VersionEdit> {
    let mut edit = VersionEdit::new(alloc);
    edit.add_file(0, file_of(alloc, num, length)?)?;
    edit.delete_file(0, num.saturating_sub(live))?;
    edit.set_next_file(num + 1);
    Ok(edit)
}

/// The manifest whose edits add the files of these numbers, of which `live` stay.
fn manifest_of(alloc: Global, count: u64, live: u64, length: usize) -> Result<LogWriter<Vec<u8>>> {
    let mut writer = LogWriter::new(alloc, Vec::new(alloc));
    writer.add_record(BEGINNING)?;
    for num in 10..10 + count {
        let edit = edit_of(alloc, num, live, length)?;
        writer.add_record(edit.encode(alloc)?.as_slice())?;
    }
    Ok(writer)
}

/// Three blocks and some bytes: 100 edits, whose last ten files are live.
fn long_manifest(alloc: Global) -> Result<Vec<u8>> {
    Ok(manifest_of(alloc, 100, 10, 500)?.sink)
}

/// A set of no files, beside a store of this manifest 1.
fn beside<E: Env + Drop>(alloc: Global, env: E, manifest: &[u8]) -> Result<Stored<E>> {
    let mut stored = Stored::new(alloc, env)?;
    put_store(&mut stored.env, manifest)?;
    Ok(stored)
}

/// Whether the live files have these numbers, in this order.
fn has_files<E: Env + Drop>(stored: &Stored<E>, first: FileNum, end: FileNum) -> bool {
    let files = stored.set.files().iter();
    files.map(|file| file.1.num).eq(first..end)
}

/// Whether a set recovers the long manifest.
fn recovers<E: Env + Drop>(alloc: Global, env: E) -> Result<bool> {
    let mut stored = beside(alloc, env, long_manifest(alloc)?.as_slice())?;
    let goes_on = !stored.recover()?;
    Ok(goes_on && numbers_of(&stored.set) == (111, 1, 0, 0) && has_files(&stored, 100, 110))
}

/// A set that isn't recovered fails so and stays as it was.
fn refuses<E: Env + Drop>(
    alloc: Global,
    env: E,
    manifest: &[u8],
    code: StatusCode,
) -> Result<bool> {
    let mut stored = beside(alloc, env, manifest)?;
    let failed = failed_with(stored.recover(), code)?;
    Ok(failed && numbers_of(&stored.set) == (2, 0, 0, 0) && has_files(&stored, 0, 0))
}

fn short(alloc: Global) -> ShortReads<MemEnv> {
    ShortReads::new(MemEnv::new(alloc))
}

#[test]
fn several_blocks(rt: HostRuntime) -> Result<()> {
    assert!(rt; long_manifest(rt.alloc())?.len() > 3 * 32_768);
    assert!(rt; recovers(rt.alloc(), MemEnv::new(rt.alloc()))?);
    assert!(rt; recovers(rt.alloc(), short(rt.alloc()))?);
    Ok(())
}

/// Of a manifest that is cut within its last edit, that edit isn't there, and a new one is begun.
#[test]
fn torn_ends(rt: HostRuntime) -> Result<()> {
    let whole = manifest_of(rt.alloc(), 40, 10, 500)?.sink;
    for left_out in [1, 500, 1000usize] {
        let torn = &whole.as_slice()[..whole.len() - left_out];
        let mut plain = beside(rt.alloc(), MemEnv::new(rt.alloc()), torn)?;
        assert!(rt; plain.recover()? && numbers_of(&plain.set) == (51, 50, 0, 0));
        assert!(rt; has_files(&plain, 39, 49));
        let mut pieces = beside(rt.alloc(), short(rt.alloc()), torn)?;
        assert!(rt; pieces.recover()? && numbers_of(&pieces.set) == numbers_of(&plain.set));
        assert!(rt; has_files(&pieces, 39, 49));
    }
    Ok(())
}

/// A record that is no edit, after some and before others.
#[test]
fn no_edit_in_the_middle(rt: HostRuntime) -> Result<()> {
    let mut writer = manifest_of(rt.alloc(), 40, 10, 500)?;
    writer.add_record(b"\x07\x07\x05\x01")?;
    for num in 50..60u64 {
        writer.add_record(
            edit_of(rt.alloc(), num, 10, 500)?
                .encode(rt.alloc())?
                .as_slice(),
        )?;
    }
    let text = writer.sink.as_slice();
    assert!(rt;
        refuses(
            rt.alloc(),
            MemEnv::new(rt.alloc()),
            text,
            StatusCode::Corruption
        )?
    );
    assert!(rt; refuses(rt.alloc(), short(rt.alloc()), text, StatusCode::Corruption)?);
    // It isn't one after a torn end.
    let mut cut = Vec::from_slice(rt.alloc(), text)?;
    if let Some(byte) = cut.as_mut_slice().get_mut(41) {
        *byte = byte.wrapping_add(1);
    }
    let mut stored = beside(rt.alloc(), MemEnv::new(rt.alloc()), cut.as_slice())?;
    assert!(rt; stored.recover()? && numbers_of(&stored.set) == (4, 3, 0, 0));
    Ok(())
}

/// How many calls recovering a manifest of more than a block makes, and whether the set stays as it
/// was where one of them fails; 0 is none.
fn with_failure(alloc: Global, text: &[u8], nth: u64, done: bool) -> Result<(u64, bool)> {
    let mut stored = beside(alloc, RecordEnv::new(alloc), text)?;
    let before = stored.env.moment();
    stored.env.fail(nth, done);
    let failed = failed_with(stored.recover(), StatusCode::IOError)?;
    let calls = stored.env.moment().saturating_sub(before) / 2;
    let same = numbers_of(&stored.set) == (2, 0, 0, 0) && has_files(&stored, 0, 0);
    // The next one is as if none had failed.
    let next = stored.recover()?;
    let again = !next && numbers_of(&stored.set) == (44, 1, 0, 0);
    Ok((calls, failed && same && again))
}

/// It is read in pieces, and each read fails once.
#[test]
fn failed_reads(rt: HostRuntime) -> Result<()> {
    let text = manifest_of(rt.alloc(), 33, 10, 500)?.sink;
    assert!(rt; text.len() > 32_768);
    let (calls, failed) = with_failure(rt.alloc(), text.as_slice(), 0, false)?;
    assert!(rt; calls as usize > text.len() / PIECE && !failed);
    for nth in 1..=calls {
        assert!(rt;
            with_failure(rt.alloc(), text.as_slice(), nth, nth % 2 == 0)?.1,
            "{nth}"
        );
    }
    Ok(())
}

/// Twenty thousand edits, each of which adds a file and deletes the one of the edit before it.
#[test]
fn many_edits(rt: HostRuntime) -> Result<()> {
    let text = manifest_of(rt.alloc(), 20_000, 1, 1)?.sink;
    let mut stored = beside(rt.alloc(), MemEnv::new(rt.alloc()), text.as_slice())?;
    assert!(rt; !stored.recover()? && numbers_of(&stored.set) == (20_011, 1, 0, 0));
    assert!(rt; has_files(&stored, 20_009, 20_010));
    Ok(())
}
