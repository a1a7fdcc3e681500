//! `db_bench`: times the store and its layers.
//! What was done goes to standard output, how long it took to standard error.
#![tactic(auto)]

use leveldb_disks::disk_env::reserve_descriptors;
use program::bench_main;
use std::process::ExitCode;
use std::{env, io};

mod block_rows;
mod disks;
mod flags;
mod iter_rows;
mod keys;
mod log_rows;
mod mem_rows;
mod program;
mod report;
mod rows;
mod store_rows;
mod sum_rows;
mod table_rows;
mod update_rows;

fn main(rt: HostRuntime) -> io::Result<ExitCode> {
    if let Err(status) = reserve_descriptors(&rt) {
        eprintln!(rt; "db_bench: {}", status.code)?;
        return Ok(ExitCode::from(1));
    }
    let words: Vec<String> = env::args(&rt)?.skip(1).collect(rt.alloc())?;
    let alloc = rt.alloc();
    let status = bench_main(alloc, &rt, &words, &mut rt.stdout(), &mut rt.stderr());
    Ok(ExitCode::from(status))
}
