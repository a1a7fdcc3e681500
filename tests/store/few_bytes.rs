//! Runs over an environment that gives at most one byte a read, or two, up to nine: what they reply
//! and the files that they leave are those of reads that give all bytes that are asked for.
use super::acts::{Setting, options_of};
use super::sinks::{commands_of, end_of};
use super::stores::STORE;
use leveldb_base::error::Result;
use leveldb_disks::mem_env::{Pick, RecordEnv};
use leveldb_env::env::Env;
use leveldb_env::env::whole_files::read_file;
use rusty_leveldb::shell::{Reply, put_replies, run};
use std::alloc::Global;
use support::ShortReads;

type Device = ShortReads<RecordEnv>;

/// What is left of a run's files.
#[derive(Clone, Copy)]
enum Left {
    /// All, since it ended.
    All,
    /// After a crash what is durable.
    Durable,
    /// After a crash all of it.
    Whole,
    /// After a crash all, but the last byte of each file that isn't durable is one higher.
    WrongLast,
}

/// A run of these commands, each on a line, over a store that is opened so.
type Run = (Setting, &'static [u8], Left);

const LOOK: Run = (
    Setting::Defaults,
    b"get 61\nget 62\nget 63\nget 64\nget 6b\nwalk now first next next\n",
    Left::All,
);

const THREE: &[u8] = b"put 61 31\nwrite 1 +62=32\nput 63 33\n";

/// A put, a synced one and another, and a crash that leaves the last or doesn't, or a part of it,
/// on which the store goes on.
const CRASHES: &[Run] = &[
    (Setting::Defaults, THREE, Left::Durable),
    LOOK,
    (Setting::Defaults, THREE, Left::Whole),
    LOOK,
    (Setting::Defaults, THREE, Left::WrongLast),
    LOOK,
    (Setting::Defaults, b"write 1 +64=34\n", Left::Durable),
    LOOK,
];

/// A snapshot through a compaction, and a deletion that goes with what it deletes.
const COMPACTIONS: &[Run] = &[
    (
        Setting::Defaults,
        b"put 6b 31\nsnap\nput 6b 32\ncompact . .\ngetat 0 6b\nget 6b\nrelease 0\ngetat 0 6b\n",
        Left::All,
    ),
    (
        Setting::Defaults,
        b"put 6b 31\ncompact . .\ndel 6b\ncompact . .\nget 6b\n",
        Left::All,
    ),
    LOOK,
];

const WALKS: &[Run] = &[
    (
        Setting::Defaults,
        b"put 61 31\nput 62 32\nput 63 33\ndel 62\nwalk now seek=63 prev prev prev next\n",
        Left::All,
    ),
    (
        Setting::Reuses(false, false),
        b"walk now seek=63 prev prev prev next\nput . .\nget .\nwalk now first next seek=.\n",
        Left::Durable,
    ),
    LOOK,
];

/// Each write but the first makes a table.
const TABLES: &[Run] = &[
    (Setting::Buffer(1), b"put 61 31\nput 62 32\n", Left::All),
    LOOK,
    (
        Setting::Buffer(1),
        b"put 61 33\nput 62 34\nput 61 35\nput 62 36\nput 61 37\nput 62 38\nput 61 39\nget 61\n",
        Left::Durable,
    ),
    LOOK,
];

fn crashed(alloc: Global, device: Device, most: usize, left: Left) -> Result<Device> {
    let moment = device.env.moment();
    let after = false;
    let mut tails = Vec::new(alloc);
    match left {
        Left::All => return Ok(device),
        Left::Durable => {}
        _ => tails = device.env.tails(alloc, moment, after)?,
    }
    if matches!(left, Left::WrongLast) {
        for (_, bytes) in tails.iter_mut() {
            if let Some(last) = bytes.last_mut() {
                *last = last.wrapping_add(1);
            }
        }
    }
    let env = device.env.disk_at(alloc, moment, &Pick { tails, after })?;
    Ok(ShortReads::at_most(most, env))
}

/// Appends each name of the store's folder with the file's bytes.
fn show_files(device: &mut Device, shown: &mut Vec<u8>) -> Result<()> {
    let alloc = *shown.allocator();
    let mut names = device.children(alloc, STORE)?;
    names.sort()?;
    for name in &names {
        let path = format!(in alloc; "{STORE}/{name}")?;
        shown.extend_from_slice(path.as_bytes())?;
        shown.extend_from_slice(&read_file(alloc, device, &path)?)?;
    }
    Ok(())
}

/// Runs this, appends what it prints, how it ends and the files that it leaves, and returns its
/// replies.
fn show(
    device: &mut Device,
    setting: Setting,
    text: &[u8],
    shown: &mut Vec<u8>,
) -> Result<Vec<Reply>> {
    let alloc = *shown.allocator();
    let commands = commands_of(alloc, text)?;
    let mut replies = Vec::new(alloc);
    let ended = run(device, STORE, options_of(setting), &commands, &mut replies);
    device.env.fail(0, false);
    let code = end_of(ended, &replies)?;
    put_replies(shown, &replies)?;
    shown.extend_from_slice(format!(in alloc; "{code}: ")?.as_bytes())?;
    show_files(device, shown)?;
    Ok(replies)
}

/// What these runs show, one after another, where a read gives so many bytes at most.
fn show_all(alloc: Global, most: usize, runs: &[Run]) -> Result<Vec<u8>> {
    let mut shown = Vec::new(alloc);
    let mut device = ShortReads::at_most(most, RecordEnv::new(alloc));
    for (setting, text, left) in runs {
        show(&mut device, *setting, text, &mut shown)?;
        device = crashed(alloc, device, most, *left)?;
    }
    Ok(shown)
}

/// Each reply, and each file.
#[test]
fn replies_are_the_same(rt: HostRuntime) -> Result<()> {
    let alloc = rt.alloc();
    for (row, runs) in [CRASHES, COMPACTIONS, WALKS, TABLES].iter().enumerate() {
        let whole = show_all(alloc, usize::MAX, runs)?;
        for most in 1..=9 {
            let few = show_all(alloc, most, runs)?;
            assert!(rt; few == whole, "row {row}, {most} bytes a read");
        }
    }
    Ok(())
}

/// A store that was closed, with k.
fn closed_store(alloc: Global, most: usize) -> Result<Device> {
    let mut device = ShortReads::at_most(most, RecordEnv::new(alloc));
    let mut shown = Vec::new(alloc);
    show(
        &mut device,
        Setting::Defaults,
        b"put 6b 31\nclose\n",
        &mut shown,
    )?;
    Ok(device)
}

/// What a crash at each moment of an opening that makes a new manifest leaves, and what a run then
/// shows; the same only once where it is the same at many moments.
fn crash_in_opening(alloc: Global, most: usize) -> Result<Vec<Vec<u8>>> {
    let mut device = closed_store(alloc, most)?;
    let from = device.env.moment();
    let mut last = Vec::new(alloc);
    let anew = Setting::Reuses(true, false);
    show(&mut device, anew, b"", &mut last)?;
    let mut all: Vec<Vec<u8>> = Vec::new(alloc);
    for moment in from..=device.env.moment() {
        let (tails, after) = (Vec::new(alloc), false);
        let env = device.env.disk_at(alloc, moment, &Pick { tails, after })?;
        let mut left = ShortReads::at_most(most, env);
        let mut shown = Vec::new(alloc);
        show_files(&mut left, &mut shown)?;
        show(&mut left, anew, LOOK.1, &mut shown)?;
        if all.last() != Some(&shown) {
            all.push(shown)?;
        }
    }
    Ok(all)
}

#[test]
fn openings_are_the_same(rt: HostRuntime) -> Result<()> {
    let whole = crash_in_opening(rt.alloc(), usize::MAX)?;
    assert!(rt; whole.len() > 4, "{}", whole.len());
    for most in 1..=9 {
        let few = crash_in_opening(rt.alloc(), most)?;
        assert!(rt; few == whole, "{most} bytes a read");
    }
    Ok(())
}

const COMPACT: &[u8] = b"compact . .\nput 61 31\nget 6b\ncompact . .\nget 6b\n";

/// What a compaction shows whose nth call fails, counted from the opening's first, with what is
/// found later; and whether it failed.
fn fail_in_compaction(alloc: Global, most: usize, nth: u64) -> Result<(Vec<u8>, bool)> {
    let mut device = closed_store(alloc, most)?;
    device.env.fail(nth, false);
    let mut shown = Vec::new(alloc);
    let replies = show(&mut device, Setting::Defaults, COMPACT, &mut shown)?;
    show(&mut device, Setting::Defaults, LOOK.1, &mut shown)?;
    Ok((shown, matches!(replies.first(), Some(Reply::Refused(_)))))
}

/// How many calls a run of the compaction alone makes.
fn count_calls(alloc: Global, most: usize) -> Result<u64> {
    let mut device = closed_store(alloc, most)?;
    let before = device.env.moment();
    let commands = commands_of(alloc, b"compact . .\n")?;
    let mut replies = Vec::new(alloc);
    run(
        &mut device,
        STORE,
        options_of(Setting::Defaults),
        &commands,
        &mut replies,
    )?;
    Ok((device.env.moment() - before) / 2)
}

/// The last call whose failure fails the compaction is the sync of the manifest: the store is
/// broken then, its reads go on, and all files stay.
fn lose_manifest(alloc: Global, most: usize) -> Result<Vec<u8>> {
    for nth in (1..=count_calls(alloc, most)?).rev() {
        let (shown, has_failed) = fail_in_compaction(alloc, most, nth)?;
        if has_failed {
            return Ok(shown);
        }
    }
    Ok(Vec::new(alloc))
}

#[test]
fn a_lost_manifest_is_the_same(rt: HostRuntime) -> Result<()> {
    let whole = lose_manifest(rt.alloc(), usize::MAX)?;
    let replies: &[u8] = b"refused IOError\nrefused IOError\nvalue 31\nrefused IOError\nvalue 31\n";
    assert!(rt; whole.starts_with(replies));
    for most in 1..=9 {
        let few = lose_manifest(rt.alloc(), most)?;
        assert!(rt; few == whole, "{most} bytes a read");
    }
    Ok(())
}
