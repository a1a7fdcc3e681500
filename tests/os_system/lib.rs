//! The calls of the system by the kit's `os` and `libc`, which take no handle: for a library that C
//! calls, where there is no `HostRuntime`.
// LevelDB: util/env_posix.cc
#![tactic(auto)]

ghost use Rattle.std.specs.Prelude.{◌≤◌, length, IfOk};

mod remove;

use leveldb_disks::disk_env::system::{Kind, Node, Opening, System, SystemFile};
use os::{FromRawFd, RangeLock};
use std::alloc::Global;
use std::io::{Error, ErrorKind, Read, Result, Write};
use std::os::fd::{AsRawFd, OwnedFd};
use std::time::Duration;

/// The files of the system.
#[derive(Clone, Copy)]
pub struct OsSystem {
    alloc: Global,
}

impl OsSystem {
    /// The files of the system, for an environment that takes its memory here.
    pub fn new(alloc: Global) -> OsSystem {
        OsSystem { alloc }
    }
}

impl Alloc for OsSystem {
    type A = Global;

    fn alloc(&self) -> Global {
        self.alloc
    }
}

/// An open file or folder. It is closed where it is dropped.
#[derive(Drop)]
pub struct OsFile {
    fd: OwnedFd,
}

// The error of the system's last call, which failed.
#[cold]
fn last_error() -> Error {
    Error::from_raw_os_error(os::errno())
}

// What a call returned that fails with a number below 0.
fn checked(answer: i32) -> Result<()> {
    if answer < 0 {
        Err(last_error())
    } else {
        Ok(())
    }
}

// The calls that a signal may interrupt.
#[derive(Clone, Copy)]
enum Call {
    Empty,
    SetMode(u32),
    SyncAll,
    SyncData,
    Flock(i32),
}

impl OsFile {
    fn try_call(&self, call: Call) -> Result<()> {
        let fd = self.fd.as_raw_fd();
        checked(match call {
            Call::Empty => libc::ftruncate(fd, 0),
            Call::SetMode(mode) => libc::fchmod(fd, mode),
            Call::SyncAll => libc::fsync(fd),
            Call::SyncData => libc::fdatasync(fd),
            Call::Flock(how) => libc::flock(fd, how),
        })
    }

    // Makes the call, again and again while signals interrupt it.
    fn call(&self, call: Call) -> Result<()> {
        for _ in 0..u64::MAX {
            match self.try_call(call) {
                Err(error) if error.kind() == ErrorKind::Interrupted => {}
                answer => return answer,
            }
        }
        Err(Error::from(ErrorKind::Interrupted))
    }
}

// What a call returned that locks a file: whether it is locked now.
fn is_locked(answer: Result<()>) -> Result<bool> {
    match answer {
        Ok(()) => Ok(true),
        Err(error) if error.kind() == ErrorKind::WouldBlock => Ok(false),
        Err(error) => Err(error),
    }
}

// The bytes that a lock by `fcntl` is on: all that a file may have.
const ALL_BYTES: u64 = i64::MAX as u64;

impl Read for OsFile {
    fn read(&mut self, target: &mut [u8]) -> Result<usize> {
        let count = libc::read(self.fd.as_raw_fd(), target);
        if count < 0 {
            return Err(last_error());
        }
        Ok(io::count(count, target))
    }
}

impl Write for OsFile {
    fn write(&mut self, bytes: &[u8]) -> Result<usize> {
        let count = libc::write(self.fd.as_raw_fd(), bytes);
        if count < 0 {
            return Err(last_error());
        }
        Ok(io::count(count, bytes))
    }

    fn flush(&mut self) -> Result<()> {
        Ok(())
    }
}

impl SystemFile for OsFile {
    fn read_at(&self, target: &mut [u8], offset: u64) -> Result<usize> {
        let count = libc::pread(self.fd.as_raw_fd(), target, offset.cast_signed());
        if count < 0 {
            return Err(last_error());
        }
        Ok(io::count(count, target))
    }

    fn node(&self) -> Result<Node> {
        node_at(self.fd.as_raw_fd(), b"", libc::AT_EMPTY_PATH)
    }

    fn set_mode(&self, mode: u32) -> Result<()> {
        self.call(Call::SetMode(mode))
    }

    fn empty(&self) -> Result<()> {
        self.call(Call::Empty)
    }

    fn sync_all(&self) -> Result<()> {
        self.call(Call::SyncAll)
    }

    fn sync_data(&self) -> Result<()> {
        self.call(Call::SyncData)
    }

    // Two locks: by `flock`, as a program of `std` takes it, and by `fcntl` of the open file, which
    // keeps out whoever locks by `fcntl`, as C++ LevelDB does, and is kept out by them.
    fn try_lock(&self) -> Result<bool> {
        if !is_locked(self.call(Call::Flock(libc::LOCK_EX | libc::LOCK_NB)))? {
            return Ok(false);
        }
        let fd = self.fd.as_raw_fd();
        let answer = os::try_lock_range(fd, RangeLock::Exclusive, 0, ALL_BYTES);
        let locked = is_locked(checked(answer));
        if !matches!(locked, Ok(true)) {
            self.call(Call::Flock(libc::LOCK_UN))?;
        }
        locked
    }

    fn unlock(&self) -> Result<()> {
        let fd = self.fd.as_raw_fd();
        checked(os::try_lock_range(fd, RangeLock::Unlock, 0, ALL_BYTES))?;
        self.call(Call::Flock(libc::LOCK_UN))
    }
}

// What is at a path that begins at an open folder.
fn node_at(folder: i32, path: &[u8], flags: i32) -> Result<Node> {
    let mut found = no_node();
    checked(os::statx(folder, path, flags, &mut found))?;
    let mode = u32::from(found.stx_mode);
    Ok(Node {
        kind: match mode & libc::S_IFMT {
            libc::S_IFREG => Kind::File,
            libc::S_IFDIR => Kind::Folder,
            _ => Kind::Other,
        },
        size: found.stx_size,
        links: u64::from(found.stx_nlink),
        device: u64::from(found.stx_dev_major) << 32 | u64::from(found.stx_dev_minor),
        inode: found.stx_ino,
        mode: mode & 0o7777,
    })
}

fn no_time() -> libc::types::statx_timestamp {
    libc::types::statx_timestamp {
        tv_sec: 0,
        tv_nsec: 0,
        __reserved: 0,
    }
}

fn no_node() -> libc::types::statx {
    libc::types::statx {
        stx_mask: 0,
        stx_blksize: 0,
        stx_attributes: 0,
        stx_nlink: 0,
        stx_uid: 0,
        stx_gid: 0,
        stx_mode: 0,
        __spare0: [0; 1],
        stx_ino: 0,
        stx_size: 0,
        stx_blocks: 0,
        stx_attributes_mask: 0,
        stx_atime: no_time(),
        stx_btime: no_time(),
        stx_ctime: no_time(),
        stx_mtime: no_time(),
        stx_rdev_major: 0,
        stx_rdev_minor: 0,
        stx_dev_major: 0,
        stx_dev_minor: 0,
        stx_mnt_id: 0,
        stx_dio_mem_align: 0,
        stx_dio_offset_align: 0,
        __spare3: [0; 12],
    }
}

fn flags_of(opening: Opening) -> i32 {
    match opening {
        Opening::ToRead => libc::O_RDONLY,
        Opening::ToAppend => libc::O_RDWR | libc::O_APPEND,
        Opening::ToAppendOrCreate => libc::O_RDWR | libc::O_APPEND | libc::O_CREAT,
        Opening::ToCreate => libc::O_RDWR | libc::O_APPEND | libc::O_CREAT | libc::O_EXCL,
    }
}

fn owned(fd: i32) -> Result<OwnedFd> {
    if fd < 0 {
        return Err(last_error());
    }
    Ok(unsafe { OwnedFd::from_raw_fd(fd) })
}

// Opens a name, again and again while signals interrupt that.
fn open_fd(name: &str, opening: Opening) -> Result<OwnedFd> {
    for _ in 0..u64::MAX {
        match owned(os::open_with(name.as_bytes(), flags_of(opening), 0o644)) {
            Err(error) if error.kind() == ErrorKind::Interrupted => {}
            answer => return answer,
        }
    }
    Err(Error::from(ErrorKind::Interrupted))
}

// The names that come next in an open folder, each with a NUL after it: how many bytes they are, 0
// at the end.
fn read_names(folder: &OwnedFd, names: &mut [u8]) -> Result<usize>
    ensures { IfOk result (λ n. n ≤ length names.new) }
{
    let count = os::read_dir(folder.as_raw_fd(), names);
    let errno = os::errno();
    // a folder that was removed has no more names
    if errno == 0 || errno == libc::ENOENT {
        Ok(count)
    } else {
        Err(Error::from_raw_os_error(errno))
    }
}

fn is_folder_at(folder: &OwnedFd, name: &[u8]) -> bool {
    match node_at(folder.as_raw_fd(), name, libc::AT_SYMLINK_NOFOLLOW) {
        Ok(node) => node.kind == Kind::Folder,
        Err(_) => false,
    }
}

// Whether a name that was read is that of something in the folder.
fn is_inside(name: &[u8]) -> bool {
    !matches!(name, b"" | b"." | b"..")
}

// Puts a name that was read after the others, if it is a text, and of no folder where that is asked
// for. One whose kind can't be found out counts as a file.
fn put_name(
    names: &mut Vec<String>,
    alloc: Global,
    folder: &OwnedFd,
    name: &[u8],
    no_folders: bool,
) -> Result<()> {
    if !is_inside(name) || (no_folders && is_folder_at(folder, name)) {
        return Ok(());
    }
    if let Ok(text) = std::str::from_utf8(name) {
        names.push(String::from_str(alloc, text)?)?;
    }
    Ok(())
}

impl System for OsSystem {
    type File = OsFile;

    // The descriptors 0 to 2 are a program's standard streams: no file gets one of these.
    fn open(&self, name: &str, opening: Opening) -> Result<OsFile> {
        let fd = open_fd(name, opening)?;
        if fd.as_raw_fd() > 2 {
            return Ok(OsFile { fd });
        }
        Ok(OsFile {
            fd: fd.try_clone()?,
        })
    }

    fn node_of(&self, name: &str) -> Result<Node> {
        node_at(libc::AT_FDCWD, name.as_bytes(), 0)
    }

    fn list(&self, alloc: Global, folder: &str, no_folders: bool) -> Result<Vec<String>> {
        if self.node_of(folder)?.kind != Kind::Folder {
            return Err(Error::from_raw_os_error(libc::ENOTDIR));
        }
        let folder = open_fd(folder, Opening::ToRead)?;
        let mut names = Vec::new(alloc);
        let mut read = [0; 4096];
        for _ in 0..u64::MAX {
            let count = read_names(&folder, &mut read)?;
            if count == 0 {
                break;
            }
            for name in read[..count].split(|byte| *byte == 0) {
                put_name(&mut names, alloc, &folder, name, no_folders)?;
            }
        }
        Ok(names)
    }

    // (`try_lock` sees both kinds)
    fn others_lock(&self, _file: &OsFile) -> Result<bool> {
        Ok(false)
    }

    fn delete(&self, name: &str) -> Result<()> {
        checked(os::unlink(name.as_bytes()))
    }

    fn rename(&self, from: &str, to: &str) -> Result<()> {
        checked(os::rename(from.as_bytes(), to.as_bytes()))
    }

    fn make_folder(&self, folder: &str) -> Result<()> {
        checked(os::mkdir_with(folder.as_bytes(), 0o755))
    }

    fn remove_folder(&self, alloc: Global, folder: &str) -> Result<()> {
        remove::remove_folder(alloc, folder)
    }

    fn now(&self) -> Result<Duration> {
        let mut time = libc::types::timespec {
            tv_sec: 0,
            tv_nsec: 0,
        };
        checked(libc::clock_gettime(libc::CLOCK_REALTIME, &mut time))?;
        let seconds = Duration::from_secs(time.tv_sec.unsigned_abs());
        Ok(seconds.saturating_add(Duration::from_nanos(time.tv_nsec.unsigned_abs())))
    }
}
