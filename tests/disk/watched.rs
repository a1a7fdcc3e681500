//! A system whose calls that change or sync something are noted, and of which a chosen one fails.
use leveldb_disks::disk_env::system::{Node, Opening, System, SystemFile};
use std::alloc::Global;
use std::cell::{Cell, RefCell};
use std::io::{self, Read, Write};
use std::time::Duration;

/// What was done, and what fails.
#[derive(Drop)]
pub struct Log {
    pub alloc: Global,
    words: RefCell<String>,

    /// The call that comes after so many others fails. None does at 0.
    pub fails_in: Cell<usize>,

    /// How many bytes one write takes at most, and all writes together.
    pub piece: Cell<usize>,
    pub room: Cell<usize>,
}

impl Log {
    pub fn new(alloc: Global) -> Log {
        Log {
            alloc,
            words: RefCell::new(String::new(alloc)),
            fails_in: Cell::new(0),
            piece: Cell::new(usize::MAX),
            room: Cell::new(usize::MAX),
        }
    }

    /// What was done since the last time, each call with a `|` after it.
    pub fn take(&self) -> String {
        match self.words.try_replace(String::new(self.alloc)) {
            Ok(words) => words,
            Err(none) => none,
        }
    }

    fn note(&self, verb: &str, name: &str) -> io::Result<()> {
        if let Ok(mut words) = self.words.try_borrow_mut() {
            words.push_str(verb)?;
            words.push(' ')?;
            words.push_str(name)?;
            words.push('|')?;
        }
        let fails_in = self.fails_in.get();
        self.fails_in.set(fails_in.saturating_sub(1));
        if fails_in == 1 {
            return Err(io::Error::other("it was chosen to fail"));
        }
        Ok(())
    }
}

/// A file whose calls are noted under the name under which it was opened.
#[derive(Drop)]
pub struct WatchedFile<'a, F> {
    file: F,
    name: String,
    log: &'a Log,
}

impl<'a, F: SystemFile> Read for WatchedFile<'a, F> {
    fn read(&mut self, target: &mut [u8]) -> io::Result<usize> {
        self.file.read(target)
    }
}

impl<'a, F: SystemFile> Write for WatchedFile<'a, F> {
    fn write(&mut self, bytes: &[u8]) -> io::Result<usize> {
        self.log.note("write", self.name.as_str())?;
        let room = self.log.room.get();
        let most = self.log.piece.get().min(room).min(bytes.len());
        let count = self.file.write(bytes.get(..most).unwrap_or_default())?;
        self.log.room.set(room.saturating_sub(count));
        Ok(count)
    }

    fn flush(&mut self) -> io::Result<()> {
        self.file.flush()
    }
}

impl<'a, F: SystemFile> SystemFile for WatchedFile<'a, F> {
    fn read_at(&self, target: &mut [u8], offset: u64) -> io::Result<usize> {
        self.file.read_at(target, offset)
    }

    fn node(&self) -> io::Result<Node> {
        self.file.node()
    }

    fn set_mode(&self, mode: u32) -> io::Result<()> {
        self.file.set_mode(mode)
    }

    fn empty(&self) -> io::Result<()> {
        self.log.note("empty", self.name.as_str())?;
        self.file.empty()
    }

    fn sync_all(&self) -> io::Result<()> {
        self.log.note("sync", self.name.as_str())?;
        self.file.sync_all()
    }

    fn sync_data(&self) -> io::Result<()> {
        self.log.note("sync bytes of", self.name.as_str())?;
        self.file.sync_data()
    }

    fn try_lock(&self) -> io::Result<bool> {
        self.log.note("lock", self.name.as_str())?;
        self.file.try_lock()
    }

    fn unlock(&self) -> io::Result<()> {
        self.log.note("unlock", self.name.as_str())?;
        self.file.unlock()
    }
}

/// A system whose calls are noted.
#[derive(Drop)]
pub struct Watched<'a, S> {
    pub system: S,
    pub log: &'a Log,
}

impl<'a, S> Alloc for Watched<'a, S> {
    type A = Global;

    fn alloc(&self) -> Global {
        self.log.alloc
    }
}

impl<'a, S: System> System for Watched<'a, S> {
    type File = WatchedFile<'a, S::File>;

    fn open(&self, name: &str, opening: Opening) -> io::Result<WatchedFile<'a, S::File>> {
        if opening == Opening::ToAppendOrCreate || opening == Opening::ToCreate {
            self.log.note("create", name)?;
        }
        Ok(WatchedFile {
            file: self.system.open(name, opening)?,
            name: String::from_str(self.log.alloc, name)?,
            log: self.log,
        })
    }

    fn node_of(&self, name: &str) -> io::Result<Node> {
        self.system.node_of(name)
    }

    fn list(&self, alloc: Global, folder: &str, no_folders: bool) -> io::Result<Vec<String>> {
        self.system.list(alloc, folder, no_folders)
    }

    fn others_lock(&self, file: &WatchedFile<'a, S::File>) -> io::Result<bool> {
        self.system.others_lock(&file.file)
    }

    fn delete(&self, name: &str) -> io::Result<()> {
        self.log.note("delete", name)?;
        self.system.delete(name)
    }

    fn rename(&self, from: &str, to: &str) -> io::Result<()> {
        self.log.note("rename", from)?;
        self.system.rename(from, to)
    }

    fn make_folder(&self, folder: &str) -> io::Result<()> {
        self.log.note("make", folder)?;
        self.system.make_folder(folder)
    }

    fn remove_folder(&self, alloc: Global, folder: &str) -> io::Result<()> {
        self.log.note("remove", folder)?;
        self.system.remove_folder(alloc, folder)
    }

    fn now(&self) -> io::Result<Duration> {
        self.system.now()
    }
}
