//! The program's arguments, and outputs that fail.
use super::files::{run, with_file};
use super::theirs::LOG;
use leveldb_base::error::{Result, StatusCode, err};
use leveldb_env::compressor::CompressorList;
use leveldb_env::env::Sink;
use leveldb_inspect::util_main;
use std::alloc::Global;
use std::process::Abort;

#[test]
fn words_that_ask_for_nothing(rt: HostRuntime) -> Result<()> {
    let cases: &[&[&str]] = &[
        &[],
        &["dump"],
        &["dump", "--hex"],
        &["dump", "--other", "000003.log"],
        &["--hex", "dump", "000003.log"],
        &["print", "000003.log"],
        &["stat"],
        &["stat", "a", "b"],
        &["check", "a", "b"],
    ];
    for words in cases {
        let mut env = with_file(rt.alloc(), "000003.log", LOG)?;
        let printed = run(rt.alloc(), &mut env, words)?;
        assert!(rt; printed.status == 2 && printed.out.is_empty());
        assert!(rt; printed.err.starts_with(b"usage: leveldbutil "));
    }
    Ok(())
}

/// A sink that takes nothing.
struct Full(Global);

impl Sink for Full {
    ghost puts = { ? };

    ghost flushes = { ? };

    fn put_all(&mut self, _bytes: &[u8]) -> Result<()> {
        err(self.0, StatusCode::IOError, "full")
    }

    fn flush(&mut self) -> Result<()> {
        Ok(())
    }
}

#[test]
fn an_output_that_fails(rt: HostRuntime) -> Result<()> {
    let mut env = with_file(rt.alloc(), "000003.log", LOG)?;
    let mut words = Vec::new(rt.alloc());
    for word in ["dump", "000003.log"] {
        words.push(String::from_str(rt.alloc(), word)?)?;
    }
    let mut err = Vec::new(rt.alloc());
    let mut out = Full(rt.alloc());
    let list = CompressorList::default();
    let status = util_main(rt.alloc(), &mut env, &list, &words, &mut out, &mut err);
    assert!(rt; status == 1 && err.as_slice() == b"leveldbutil: IOError: full\n".as_slice());
    let Full(_) = out;
    Ok(())
}
