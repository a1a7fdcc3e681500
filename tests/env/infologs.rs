//! Lines for an information log.
use leveldb_base::error::{Result, StatusCode, err};
use leveldb_env::infolog::{InfoSink, Logger};
use leveldb_env::log;
use leveldb_env::options::Options;
use std::alloc::Global;
use std::cell::Cell;
use std::rc::Rc;

/// A sink that counts lines and bytes, and fails where it is broken.
#[derive(Drop)]
struct Counts {
    alloc: Global,
    lines: Rc<Cell<usize>>,
    bytes: Rc<Cell<usize>>,
    is_broken: bool,
}

impl InfoSink for Counts {
    fn write(&mut self, line: &[u8]) -> Result<()> {
        if self.is_broken {
            return err(self.alloc, StatusCode::IOError, "the sink is broken");
        }
        self.lines.set(self.lines.get().saturating_add(1));
        let bytes = if line.ends_with(b"\n") { line.len() } else { 0 };
        self.bytes.set(self.bytes.get().saturating_add(bytes));
        Ok(())
    }
}

/// How many lines and bytes come of two lines, with a sink in the options.
fn logged(alloc: Global, is_broken: bool) -> Result<[usize; 2]> {
    let lines = Rc::new(alloc, Cell::new(0))?;
    let bytes = Rc::new(alloc, Cell::new(0))?;
    let sink = Counts {
        alloc,
        lines: lines.clone()?,
        bytes: bytes.clone()?,
        is_broken,
    };
    let mut options = Options::default();
    options.log = Some(Logger(Box::new(alloc, sink)?));
    let count = 12;
    log!(options.log, alloc; "{count} files in level {}", 3);
    log!(options.log, alloc; "done");
    Ok([lines.get(), bytes.get()])
}

#[test]
fn lines_are_handed_to_the_sink(rt: HostRuntime) -> Result<()> {
    assert!(rt; logged(rt.alloc(), false)? == [2, 20 + 5]);
    Ok(())
}

/// A sink that fails changes nothing, and nor does none, which is the default.
#[test]
fn lost_lines_are_no_error(rt: HostRuntime) -> Result<()> {
    assert!(rt; logged(rt.alloc(), true)? == [0, 0]);
    let mut options = Options::default();
    log!(options.log, rt.alloc(); "nobody reads this");
    assert!(rt; options.log.is_none());
    Ok(())
}
