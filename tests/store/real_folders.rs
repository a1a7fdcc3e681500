//! Openings that fail before anything is changed, in memory and in folders of the system.
use super::stores::DefaultOptions;
use leveldb_base::error::{Result, StatusCode};
use leveldb_disks::disk_env::PosixDiskEnv;
use leveldb_env::env::Env;
use leveldb_env::env::whole_files::read_file;
use leveldb_env::mem_env::MemEnv;
use leveldb_env::options::Options;
use leveldb_mem::log::LogWriter;
use rusty_leveldb::db_impl::Engine;
use std::alloc::Global;
use std::process::Abort;
use support::failed_with;

/// The one record of a manifest whose comparator has another name.
const OTHER_ORDER: &[u8] = b"\x01\x0aother.Cmp1\x02\0\x03\x02\x04\0";

/// Options of which one number is too small.
fn too_small(max_open_files: usize, block_size: usize) -> DefaultOptions {
    let mut options = Options::default();
    options.max_open_files = max_open_files;
    options.block_size = block_size;
    options
}

fn is_refused<E: Env>(
    alloc: Global,
    env: &mut E,
    folder: &str,
    options: DefaultOptions,
) -> Result<bool> {
    let opened = Engine::open(alloc, folder, env, options);
    failed_with(opened, StatusCode::InvalidArgument)
}

/// The names in a folder, each with the file's bytes; none where there is no folder.
fn bytes_in<E: Env>(alloc: Global, env: &mut E, folder: &str) -> Result<Vec<u8>> {
    let mut all = Vec::new(alloc);
    let mut names = match env.children(alloc, folder) {
        Err(status) if status.code == StatusCode::NotFound => Vec::new(alloc),
        names => names?,
    };
    names.sort()?;
    for name in &names {
        let path = format!(in alloc; "{folder}/{name}")?;
        all.extend_from_slice(path.as_bytes())?;
        all.extend_from_slice(&read_file(alloc, env, &path)?)?;
    }
    Ok(all)
}

fn put_file<E: Env>(
    alloc: Global,
    env: &mut E,
    folder: &str,
    name: &str,
    bytes: &[u8],
) -> Result<()> {
    let path = format!(in alloc; "{folder}/{name}")?;
    let mut file = env.open_writable_file(&path)?;
    env.append(&mut file, bytes)?;
    env.sync(&mut file)
}

/// Makes an empty store of another order.
fn make_other<E: Env>(alloc: Global, env: &mut E, folder: &str) -> Result<()> {
    let mut writer = LogWriter::new(alloc, Vec::new(alloc));
    writer.add_record(OTHER_ORDER)?;
    env.mkdir(folder)?;
    put_file(alloc, env, folder, "MANIFEST-000001", &writer.sink)?;
    put_file(alloc, env, folder, "CURRENT", b"MANIFEST-000001\n")?;
    put_file(alloc, env, folder, "LOCK", b"")
}

/// Options that don't fit make no name, and a store of another order stays as it is.
fn refuse<E: Env>(rt: &impl Abort, alloc: Global, env: &mut E, folder: &str) -> Result<()> {
    assert!(rt; is_refused(alloc, env, folder, too_small(10, 4096))?);
    assert!(rt; is_refused(alloc, env, folder, too_small(1024, 0))?);
    assert!(rt; bytes_in(alloc, env, folder)?.is_empty());
    make_other(alloc, env, folder)?;
    let before = bytes_in(alloc, env, folder)?;
    assert!(rt; is_refused(alloc, env, folder, Options::default())?);
    assert!(rt; bytes_in(alloc, env, folder)?.as_slice() == before.as_slice());
    Ok(())
}

#[test]
fn openings_are_refused_in_memory(rt: HostRuntime) -> Result<()> {
    refuse(&rt, rt.alloc(), &mut MemEnv::new(rt.alloc()), "db")
}

#[test]
fn openings_are_refused_in_a_folder(rt: HostRuntime) -> Result<()> {
    let mut env = PosixDiskEnv::new(&rt);
    env.rmdir("store_tests_refused")?;
    refuse(&rt, rt.alloc(), &mut env, "store_tests_refused/db")?;
    env.rmdir("store_tests_refused")
}
