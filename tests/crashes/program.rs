//! The program over a disk in memory, with readers and writers that refuse.
use leveldb_base::error::Result;
use leveldb_disks::disk_env::PosixDiskEnv;
use leveldb_env::env::Env;
use leveldb_env::infolog::Logger;
use leveldb_env::mem_env::MemEnv;
use rusty_leveldb::shell::ldb_main;
use rusty_leveldb::{DB, Options};
use slow_store::levels_of;
use std::alloc::Global;
use std::io::{self, Read, Write};
use std::process::Abort;
use support::{Lines, damage_file, file_bytes};

/// Lines that are no command.
const BAD_LINES: [&[u8]; 64] = [
    b"\n",
    b" ",
    b"get",
    b"get ",
    b"get 6",
    b"get 616",
    b"get 6A",
    b"get 6g",
    b"get ..",
    b"get .61",
    b"get 61 ",
    b"get  61",
    b" get 61",
    b"Get 61",
    b"get 61\r",
    b"put 61",
    b"put 61 ",
    b"put 61  31",
    b"put 61 31 ",
    b"put 61 31 32",
    b"del",
    b"del 61 62",
    b"compact",
    b"compact ",
    b"compact 61",
    b"compact 61 6",
    b"compact . .  ",
    b"compact 61 62 63",
    b"flush ",
    b"close 1",
    b"write",
    b"write ",
    b"write 2",
    b"write 01",
    b"write 0 ",
    b"write 0 61=31",
    b"write 1 +61",
    b"write 1 -61  -62",
    b"snap 1",
    b"snap ",
    b"getat",
    b"getat 0",
    b"getat 0 ",
    b"getat  61",
    b"getat 61",
    b"getat 0 6",
    b"getat now 61",
    b"getat -1 61",
    b"getat +1 61",
    b"getat 0x1 61",
    b"getat 18446744073709551616 61",
    b"getat 99999999999999999999 61",
    b"release",
    b"release ",
    b"release x",
    b"release 0 ",
    b"walk",
    b"walk ",
    b"walk first",
    b"walk now ",
    b"walk now up",
    b"walk now first  next",
    b"walk 0 seek",
    b"walk now seek=6",
];

/// A count of newlines that are nowhere stored.
#[derive(Drop)]
struct Newlines(u64);

impl Read for Newlines {
    fn read(&mut self, buf: &mut [u8]) -> io::Result<usize> {
        let count = match usize::try_from(self.0) {
            Ok(left) => left.min(buf.len()),
            Err(_) => buf.len(),
        };
        buf[..count].fill(b'\n');
        self.0 = self.0.saturating_sub(count as u64);
        Ok(count)
    }
}

/// These bytes, and then an error.
#[derive(Drop)]
struct Broken<'a>(&'a [u8]);

impl Read for Broken<'_> {
    fn read(&mut self, buf: &mut [u8]) -> io::Result<usize> {
        if self.0.is_empty() {
            return Err(io::Error::from(io::ErrorKind::InvalidData));
        }
        let count = self.0.len().min(buf.len());
        let (first, others) = self.0.split_at(count);
        buf[..count].copy_from_slice(first);
        self.0 = others;
        Ok(count)
    }
}

/// A writer with room for a number of bytes, and then an error.
#[derive(Drop)]
struct Narrow {
    held: Vec<u8>,
    room: usize,
}

impl Write for Narrow {
    fn write(&mut self, buf: &[u8]) -> io::Result<usize> {
        if self.room == 0 {
            return Err(io::Error::from(io::ErrorKind::PermissionDenied));
        }
        let count = self.room.min(buf.len());
        self.held.extend_from_slice(&buf[..count])?;
        self.room -= count;
        Ok(count)
    }

    fn flush(&mut self) -> io::Result<()> {
        Ok(())
    }
}

/// What the program did: its status, and what it wrote to its output and of an error.
#[derive(Drop)]
struct Ending {
    status: u8,
    out: Vec<u8>,
    err: Vec<u8>,
}

/// Runs the program with these arguments, this input and this output, and returns its status and
/// what it wrote of an error.
fn run_into<E: Env, R: Read, W: Write>(
    alloc: Global,
    env: &mut E,
    words: &[&str],
    input: &mut R,
    out: &mut W,
) -> io::Result<(u8, Vec<u8>)> {
    run_with_log(alloc, env, words, None, input, out)
}

/// The same with a log of what the store says of its files.
fn run_with_log<E: Env, R: Read, W: Write>(
    alloc: Global,
    env: &mut E,
    words: &[&str],
    log: Option<Logger>,
    input: &mut R,
    out: &mut W,
) -> io::Result<(u8, Vec<u8>)> {
    let mut args = Vec::new(alloc);
    for word in words {
        args.push(String::from_str(alloc, word)?)?;
    }
    let mut err = Vec::new(alloc);
    let status = ldb_main(alloc, env, &args, log, input, out, &mut err);
    Ok((status, err))
}

/// Runs the program with these arguments and this input.
fn run_program<E: Env, R: Read>(
    alloc: Global,
    env: &mut E,
    words: &[&str],
    input: &mut R,
) -> io::Result<Ending> {
    let mut out = Vec::new(alloc);
    let (status, err) = run_into(alloc, env, words, input, &mut out)?;
    Ok(Ending { status, out, err })
}

/// Runs the program with a log that expects this line, with input that is text, and compares how it
/// ends. Returns how many lines there were, and how many were right.
fn run_with_line(
    rt: &impl Abort,
    env: &mut MemEnv,
    alloc: Global,
    words: &[&str],
    text: &[u8],
    line: &'static str,
    wanted: (u8, &[u8], &[u8]),
) -> Result<(usize, usize)> {
    let lines = Lines::new(alloc)?;
    let log = Some(lines.log(alloc, line)?);
    let (mut input, mut out) = (text, Vec::new(alloc));
    let (status, err) = run_with_log(alloc, env, words, log, &mut input, &mut out)?;
    let ending = Ending { status, out, err };
    assert_ending(rt, &ending, wanted.0, wanted.1, wanted.2);
    Ok(lines.counts())
}

fn assert_ending(rt: &impl Abort, ending: &Ending, status: u8, out: &[u8], err: &[u8]) {
    assert!(rt; ending.out.as_slice() == out);
    assert!(rt; ending.err.as_slice() == err);
    assert!(rt; ending.status == status);
}

/// Runs the program over this disk, with input that is text, and compares how it ends.
pub fn assert_run<E: Env>(
    rt: &impl Abort,
    env: &mut E,
    alloc: Global,
    words: &[&str],
    text: &[u8],
    wanted: (u8, &[u8], &[u8]),
) -> io::Result<()> {
    let mut input = text;
    let ending = run_program(alloc, env, words, &mut input)?;
    assert_ending(rt, &ending, wanted.0, wanted.1, wanted.2);
    Ok(())
}

/// Inputs one after another over one disk, each with its output.
const ROWS: [(&[u8], &[u8]); 11] = [
    (b"", b""),
    (
        b"put 61 31\nget 61\nget 62\nflush\nclose\nget 61\n",
        b"ok\nvalue 31\nnone\nok\nok\nrefused InvalidArgument\n",
    ),
    (b"get 61", b"value 31\n"),
    (b"get 61\n", b"value 31\n"),
    (b"put 00ff .\nget 00ff", b"ok\nvalue .\n"),
    (b"put . 0a\nget .", b"ok\nvalue 0a\n"),
    (
        b"write 1 +61=32 -00ff +.=.\nget 61\nget 00ff\nget .\n",
        b"ok\nvalue 32\nnone\nvalue .\n",
    ),
    (b"write 0\ndel 61\nget 61\n", b"ok\nok\nnone\n"),
    (b"write 0 -. +0b=0c -0b\nget 0b\n", b"ok\nnone\n"),
    (
        b"put 61 31\nsnap\ndel 61\ncompact . .\ncompact 61 7a\ngetat 0 61\nget 61\nrelease 0\ncompact . 61\nget 61",
        b"ok\nsnapshot 0\nok\nok\nok\nvalue 31\nnone\nok\nok\nnone\n",
    ),
    (
        b"put 62 32\ncompact 7a 61\nget 62\nclose\ncompact . .",
        b"ok\nok\nvalue 32\nok\nrefused InvalidArgument\n",
    ),
];

#[test]
fn commands(rt: HostRuntime) -> io::Result<()> {
    let mut env = MemEnv::new(rt.alloc());
    for (input, out) in &ROWS {
        assert_run(&rt, &mut env, rt.alloc(), &["db"], input, (0, out, b""))?;
    }
    Ok(())
}

/// Commands over an empty disk, and how the levels of the store begin that they leave.
const COMPACTED: [(&[u8], &[u8], &str); 3] = [
    (
        b"put 61 31\ncompact . .\n",
        b"ok\nok\n",
        "level 2: 1 files, ",
    ),
    // The older value goes, and what is left goes down.
    (
        b"put 61 31\ncompact . .\nput 61 32\ncompact . .\n",
        b"ok\nok\nok\nok\n",
        "level 3: 1 files, ",
    ),
    // The first table isn't in the range.
    (
        b"put 61 31\ncompact . .\nput 7a 32\ncompact 7a .\n",
        b"ok\nok\nok\nok\n",
        "level 2: 2 files, ",
    ),
];

#[test]
fn compactions(rt: HostRuntime) -> Result<()> {
    let alloc = rt.alloc();
    for (input, out, begins) in &COMPACTED {
        let mut env = MemEnv::new(alloc);
        let wanted = (0, *out, b"".as_slice());
        assert!(rt; assert_run(&rt, &mut env, alloc, &["db"], input, wanted).is_ok());
        let levels = levels_of(alloc, &mut env, "db")?;
        assert!(rt; levels.as_str().starts_with(*begins), "{levels}");
    }
    Ok(())
}

#[test]
fn misuse(rt: HostRuntime) -> io::Result<()> {
    let wanted = (
        2,
        b"".as_slice(),
        b"usage: ldb [--repair | --read-only] DIR\n".as_slice(),
    );
    let mut env = MemEnv::new(rt.alloc());
    assert_run(&rt, &mut env, rt.alloc(), &[], b"get", wanted)?;
    assert_run(&rt, &mut env, rt.alloc(), &["db", "db"], b"get", wanted)
}

/// Input with a bad line, over an empty disk.
fn assert_bad(rt: &impl Abort, alloc: Global, input: &[u8], err: &[u8]) -> io::Result<()> {
    let mut env = MemEnv::new(alloc);
    assert_run(rt, &mut env, alloc, &["db"], input, (2, b"", err))
}

#[test]
fn bad_first_lines(rt: HostRuntime) -> io::Result<()> {
    for line in &BAD_LINES {
        assert_bad(&rt, rt.alloc(), line, b"bad command in line 1\n")?;
    }
    Ok(())
}

/// Inputs whose second, third and tenth line is bad, and what is said of each.
const LATER_BAD_LINES: [(&[u8], &[u8]); 3] = [
    (b"flush\n\nget 61", b"bad command in line 2\n"),
    (b"flush\nget 61\nget\nput", b"bad command in line 3\n"),
    (
        b"flush\nflush\nflush\nflush\nflush\nflush\nflush\nflush\nflush\n ",
        b"bad command in line 10\n",
    ),
];

#[test]
fn later_bad_lines(rt: HostRuntime) -> io::Result<()> {
    for (input, err) in &LATER_BAD_LINES {
        assert_bad(&rt, rt.alloc(), input, err)?;
    }
    Ok(())
}

/// Runs the program on this many newlines, where it writes this of an error, and returns how many
/// it leaves.
fn read_newlines(rt: &impl Abort, alloc: Global, count: u64, err: &[u8]) -> io::Result<u64> {
    let mut env = MemEnv::new(alloc);
    let mut input = Newlines(count);
    let ending = run_program(alloc, &mut env, &["db"], &mut input)?;
    assert_ending(rt, &ending, 2, b"", err);
    Ok(input.0)
}

/// The longest input, and a longer one.
pub fn read_long_inputs(rt: &impl Abort, alloc: Global) -> io::Result<()> {
    assert!(rt; read_newlines(rt, alloc, 1 << 26, b"bad command in line 1\n")? == 0);
    assert!(rt; read_newlines(rt, alloc, (1 << 26) + 7, b"input too long\n")? == 6);
    Ok(())
}

#[test]
fn broken_input(rt: HostRuntime) -> io::Result<()> {
    let alloc = rt.alloc();
    let mut env = MemEnv::new(alloc);
    let mut input = Broken(b"put 61 31\nget 61\n");
    let ending = run_program(alloc, &mut env, &["db"], &mut input)?;
    assert_ending(&rt, &ending, 1, b"", b"ldb: Corruption\n");
    assert_run(
        &rt,
        &mut env,
        alloc,
        &["db"],
        b"get 61",
        (0, b"none\n", b""),
    )
}

/// Whether an output with this room has a part of what is written and a failure, or all of it.
fn is_cut(room: usize, out: &[u8], status: u8, err: &[u8]) -> bool {
    if room < WRITTEN.len() {
        out == &WRITTEN[..room] && status == 1 && err == b"ldb: PermissionDenied\n".as_slice()
    } else {
        out == WRITTEN && status == 0 && err.is_empty()
    }
}

const WRITTEN: &[u8] = b"ok\nvalue 31\nnone\n";

fn write_to_room(rt: &impl Abort, alloc: Global, room: usize) -> io::Result<()> {
    let mut env = MemEnv::new(alloc);
    let mut input = b"put 61 31\nget 61\nget 62\n".as_slice();
    let held = Vec::new(alloc);
    let mut out = Narrow { held, room };
    let (status, err) = run_into(alloc, &mut env, &["db"], &mut input, &mut out)?;
    assert!(rt; is_cut(room, &out.held, status, &err));
    Ok(())
}

#[test]
fn narrow_output(rt: HostRuntime) -> io::Result<()> {
    for room in 0..=WRITTEN.len() {
        write_to_room(&rt, rt.alloc(), room)?;
    }
    Ok(())
}

fn is_of_a_lock(ending: &Ending) -> bool {
    ending.status == 1
        && ending.out.is_empty()
        && ending.err.starts_with(b"ldb: LockError: ")
        && ending.err.last() == Some(&b'\n')
}

#[test]
fn locked_store(rt: HostRuntime) -> io::Result<()> {
    let alloc = rt.alloc();
    let mut env = MemEnv::new(alloc);
    assert!(rt; env.lock("db/LOCK").is_ok());
    let mut input = b"get 61\n".as_slice();
    assert!(rt; is_of_a_lock(&run_program(alloc, &mut env, &["db"], &mut input)?));
    Ok(())
}

const DAMAGED: &str =
    "db/000003.log: 48 bytes from byte 0 on are left out, whole records among them\n";

/// Whether a file of the store isn't under its name but has these bytes under that of a damaged one.
fn is_set_aside(alloc: Global, env: &mut MemEnv, name: &str, bytes: &[u8]) -> Result<bool> {
    let path = format!(in alloc; "db/{name}")?;
    let aside = format!(in alloc; "{name}.damaged")?;
    Ok(!env.exists(&path)? && file_bytes(alloc, env, &aside)?.as_slice() == bytes)
}

/// What the store says of a damaged log is a line, and changes no reply. The log is set aside.
#[test]
fn a_damaged_log(rt: HostRuntime) -> Result<()> {
    let alloc = rt.alloc();
    let mut env = MemEnv::new(alloc);
    let mut input = b"put 61 31\nput 62 32\n".as_slice();
    let ending = run_program(alloc, &mut env, &["db"], &mut input)?;
    assert_ending(&rt, &ending, 0, b"ok\nok\n", b"");
    damage_file(alloc, &mut env, "000003.log", 10)?;
    let bytes = file_bytes(alloc, &mut env, "000003.log")?;
    let wanted = (0, b"none\nnone\n".as_slice(), b"".as_slice());
    let get = b"get 61\nget 62\n";
    let counts = run_with_line(&rt, &mut env, alloc, &["db"], get, DAMAGED, wanted)?;
    assert!(rt; counts.1 == 1);
    assert!(rt; is_set_aside(alloc, &mut env, "000003.log", &bytes)?);
    Ok(())
}

const DAMAGED_MANIFEST: &str =
    "db/MANIFEST-000001: 80 bytes from byte 41 on are left out, whole records among them\n";

/// Of three keys two are in tables that a damaged edit names: they aren't found, and their tables
/// stay. The manifest is set aside.
#[test]
fn a_damaged_manifest(rt: HostRuntime) -> Result<()> {
    let alloc = rt.alloc();
    let mut env = MemEnv::new(alloc);
    let mut options = Options::default();
    options.write_buffer_size = 1;
    let mut db = DB::open(alloc, "db", &mut env, options)?;
    db.put(b"a", b"1")?;
    db.put(b"b", b"2")?;
    db.put(b"c", b"3")?;
    db.close()?;
    db.abandon()?;
    damage_file(alloc, &mut env, "MANIFEST-000001", 53)?;
    let bytes = file_bytes(alloc, &mut env, "MANIFEST-000001")?;
    let wanted = (0, b"none\nnone\nvalue 33\n".as_slice(), b"".as_slice());
    let get = b"get 61\nget 62\nget 63\n";
    let counts = run_with_line(&rt, &mut env, alloc, &["db"], get, DAMAGED_MANIFEST, wanted)?;
    assert!(rt; counts.1 == 1);
    for name in ["000005.ldb", "000007.ldb"] {
        let path = format!(in alloc; "db/{name}")?;
        assert!(rt; env.exists(&path)?);
    }
    assert!(rt; is_set_aside(alloc, &mut env, "MANIFEST-000001", &bytes)?);
    Ok(())
}

// ---- repairs

const REPAIR: &[&str] = &["--repair", "db"];

/// What a repair ends with that is done.
const REPAIRED: (u8, &[u8], &[u8]) = (0, b"repaired\n", b"");

/// A store without its manifest isn't opened, is repaired without a look at the input, and then
/// opened.
fn repair_program<E: Env>(rt: &impl Abort, alloc: Global, env: &mut E, folder: &str) -> Result<()> {
    let put = b"put 61 31\nput 62 32\ndel 61\n".as_slice();
    assert_run(rt, env, alloc, &[folder], put, (0, b"ok\nok\nok\n", b""))?;
    env.delete(&format!(in alloc; "{folder}/CURRENT")?)?;
    env.delete(&format!(in alloc; "{folder}/MANIFEST-000001")?)?;
    let mut input = b"get 62\n".as_slice();
    let ending = run_program(alloc, env, &[folder], &mut input)?;
    assert!(rt; ending.status == 1 && ending.err.starts_with(b"ldb: Corruption"));
    let words: &[&str] = &["--repair", folder];
    let mut input = Broken(b"");
    let ending = run_program(alloc, env, words, &mut input)?;
    assert_ending(rt, &ending, REPAIRED.0, REPAIRED.1, REPAIRED.2);
    let get = b"get 61\nget 62\nput 63 33\n".as_slice();
    assert_run(
        rt,
        env,
        alloc,
        &[folder],
        get,
        (0, b"none\nvalue 32\nok\n", b""),
    )?;
    assert_run(rt, env, alloc, words, b"no command", REPAIRED)?;
    assert_run(
        rt,
        env,
        alloc,
        &[folder],
        b"get 63",
        (0, b"value 33\n", b""),
    )?;
    Ok(())
}

#[test]
fn a_repair(rt: HostRuntime) -> Result<()> {
    repair_program(&rt, rt.alloc(), &mut MemEnv::new(rt.alloc()), "db")
}

#[test]
fn a_repair_in_a_folder(rt: HostRuntime) -> Result<()> {
    let mut env = PosixDiskEnv::new(&rt);
    env.rmdir("repair_tests")?;
    repair_program(&rt, rt.alloc(), &mut env, "repair_tests/db")?;
    env.rmdir("repair_tests")
}

/// A refusal is told as that of an opening, and so is an output that is refused.
#[test]
fn refused_repairs(rt: HostRuntime) -> io::Result<()> {
    let alloc = rt.alloc();
    let mut env = MemEnv::new(alloc);
    let nothing = b"ldb: InvalidArgument: neither a table nor a log is there\n".as_slice();
    assert_run(&rt, &mut env, alloc, REPAIR, b"", (1, b"", nothing))?;
    assert_run(
        &rt,
        &mut env,
        alloc,
        &["db"],
        b"put 61 31",
        (0, b"ok\n", b""),
    )?;
    for room in 0..REPAIRED.1.len() {
        let held = Vec::new(alloc);
        let mut out = Narrow { held, room };
        let (status, err) = run_into(alloc, &mut env, REPAIR, &mut b"".as_slice(), &mut out)?;
        assert!(rt; status == 1 && err.as_slice() == b"ldb: PermissionDenied\n".as_slice());
        assert!(rt; out.held.as_slice() == &REPAIRED.1[..room]);
    }
    assert!(rt; env.lock("db/LOCK").is_ok());
    let mut input = b"".as_slice();
    assert!(rt; is_of_a_lock(&run_program(alloc, &mut env, REPAIR, &mut input)?));
    assert!(rt; env.unlock("db/LOCK").is_ok());
    assert_run(
        &rt,
        &mut env,
        alloc,
        &["db"],
        b"get 61",
        (0, b"value 31\n", b""),
    )
}

const LEFT_OUT: &str =
    "db/000003.log: 24 bytes from byte 24 on are left out, no whole record among them\n";

/// What a repair leaves out is a line.
#[test]
fn a_repair_of_a_damaged_log(rt: HostRuntime) -> Result<()> {
    let alloc = rt.alloc();
    let mut env = MemEnv::new(alloc);
    let put = b"put 61 31\nput 62 32\n".as_slice();
    assert_run(&rt, &mut env, alloc, &["db"], put, (0, b"ok\nok\n", b""))?;
    damage_file(alloc, &mut env, "000003.log", 40)?;
    let counts = run_with_line(&rt, &mut env, alloc, REPAIR, b"", LEFT_OUT, REPAIRED)?;
    assert!(rt; counts == (1, 1));
    let get = b"get 61\nget 62\n".as_slice();
    assert_run(
        &rt,
        &mut env,
        alloc,
        &["db"],
        get,
        (0, b"value 31\nnone\n", b""),
    )?;
    Ok(())
}
