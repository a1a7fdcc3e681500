//! The commands of `ldb` over a store whose blocks Snappy compresses, as C++ LevelDB has it by
//! default.

use leveldb_base::error::{Result, StatusCode, err};
use leveldb_env::env::Env;
use leveldb_env::options::Options;
use leveldb_snappy::Snappy;
use rusty_leveldb::repair;
use rusty_leveldb::shell::{Script, parse, put_replies, run};
use std::alloc::Global;

/// What the input has, up to its end.
fn input(rt: &(impl Input + AllocGlobal)) -> Result<String> {
    let mut text = String::new(rt.alloc());
    for _ in 0..u64::MAX {
        if rt.read_line(&mut text)? == 0 {
            break;
        }
    }
    Ok(text)
}

/// Runs the commands of the input over the store of this name, and prints the replies.
pub fn run_commands<E: Env>(
    rt: &(impl Print + Input + AllocGlobal),
    env: &mut E,
    name: &str,
) -> Result<()> {
    let alloc = rt.alloc();
    let text = input(rt)?;
    let Script::Commands(commands) = parse(alloc, text.as_bytes())? else {
        return err(alloc, StatusCode::InvalidArgument, "a bad command");
    };
    let mut options = Options::default();
    options
        .compressor_list
        .set::<Snappy>(alloc, Box::new(alloc, Snappy)?)?;
    options.compressor = 1;
    let mut replies = Vec::new(alloc);
    run(env, name, options, &commands, &mut replies)?;
    let mut text = Vec::new(alloc);
    put_replies(&mut text, &replies)?;
    rt.write_all(&text)?;
    Ok(())
}

/// Repairs the store of this name.
pub fn repair_store<E: Env>(alloc: Global, env: &mut E, name: &str) -> Result<()> {
    let mut options = Options::default();
    options
        .compressor_list
        .set::<Snappy>(alloc, Box::new(alloc, Snappy)?)?;
    options.compressor = 1;
    repair(alloc, name, env, options)
}
