//! `snappy_trials encode`, `decode` and `time ROUNDS`: stores texts in Snappy's format, reads them
//! again, and says how much processor time that takes. tools/snappytrials/run runs it beside C++
//! Snappy.
//!
//! The input is records, each a length of four bytes and so many bytes. The output of `encode` is
//! such records, and that of `decode` is a byte before each record, 1, or 0 where bytes make no
//! text.
#![tactic(auto)]

use leveldb_base::error::{Result, StatusCode, err};
use leveldb_env::compressor::Compressor;
use leveldb_snappy::Snappy;
use std::alloc::Global;
use std::io::{Read, Write};
use std::process::ExitCode;
use std::time::CpuClock;
use std::{env, io};

/// The record at the front, and what follows it.
fn record(bytes: &[u8]) -> Option<(&[u8], &[u8])> {
    let (length, rest) = bytes.split_first_chunk::<4>()?;
    rest.split_at_checked(u32::from_le_bytes(*length) as usize)
}

fn put_record(output: &mut Vec<u8>, bytes: &[u8]) -> Result<()> {
    let length = (bytes.len() % (1 << 32)) as u32;
    output.extend_from_slice(&length.to_le_bytes())?;
    output.extend_from_slice(bytes)?;
    Ok(())
}

/// The records of what each text is stored as.
fn encode(alloc: Global, input: &[u8]) -> Result<Vec<u8>> {
    let mut output = Vec::new(alloc);
    let mut left = input;
    for _ in 0..u64::MAX {
        let Some((text, rest)) = record(left) else {
            break;
        };
        let stored = Snappy.encode(alloc, text.to_vec(alloc)?)?;
        put_record(&mut output, &stored)?;
        left = rest;
    }
    Ok(output)
}

/// The records of the texts that are stored so.
fn decode(alloc: Global, input: &[u8]) -> Result<Vec<u8>> {
    let mut output = Vec::new(alloc);
    let mut left = input;
    for _ in 0..u64::MAX {
        let Some((stored, rest)) = record(left) else {
            break;
        };
        match Snappy.decode(alloc, stored.to_vec(alloc)?) {
            Ok(text) => {
                output.push(1)?;
                put_record(&mut output, &text)?;
            }
            Err(status) if status.code != StatusCode::OutOfMemory => {
                output.push(0)?;
                put_record(&mut output, &[])?;
            }
            Err(status) => return Err(status),
        }
        left = rest;
    }
    Ok(output)
}

/// The texts of records.
fn texts(alloc: Global, input: &[u8]) -> Result<Vec<Vec<u8>>> {
    let mut texts = Vec::new(alloc);
    let mut left = input;
    for _ in 0..u64::MAX {
        let Some((text, rest)) = record(left) else {
            break;
        };
        texts.push(text.to_vec(alloc)?)?;
        left = rest;
    }
    Ok(texts)
}

/// The nanoseconds that a processor has run the program.
fn nanos<K: CpuClock>(clock: &K) -> Result<u64> {
    let time = clock.process_cpu_time()?;
    Ok(
        time.as_secs()
            .saturating_mul(1_000_000_000)
            .saturating_add(u64::from(time.subsec_nanos())),
    )
}

/// The nanoseconds in which texts are stored, and how many bytes they take.
fn time_encode<K: CpuClock>(alloc: Global, clock: &K, texts: Vec<Vec<u8>>) -> Result<(u64, usize)> {
    let mut bytes = 0usize;
    let start = nanos(clock)?;
    for text in texts {
        bytes = bytes.wrapping_add(Snappy.encode(alloc, text)?.len());
    }
    Ok((nanos(clock)?.saturating_sub(start), bytes))
}

/// The nanoseconds in which texts are read, and how many bytes they have.
fn time_decode<K: CpuClock>(
    alloc: Global,
    clock: &K,
    stored: Vec<Vec<u8>>,
) -> Result<(u64, usize)> {
    let mut bytes = 0usize;
    let start = nanos(clock)?;
    for stored in stored {
        bytes = bytes.wrapping_add(Snappy.decode(alloc, stored)?.len());
    }
    Ok((nanos(clock)?.saturating_sub(start), bytes))
}

/// Prints a line for each round: the nanoseconds of a processor in storing and reading all texts,
/// and how many bytes these are, stored and read.
fn time(rt: &(impl Print + CpuClock), alloc: Global, input: &[u8], rounds: u64) -> Result<()> {
    let stored = encode(alloc, input)?;
    for _ in 0..rounds {
        let (encoding, short) = time_encode(alloc, rt, texts(alloc, input)?)?;
        let (decoding, long) = time_decode(alloc, rt, texts(alloc, &stored)?)?;
        println!(rt; "{encoding} {decoding} {short} {long}")?;
    }
    Ok(())
}

fn run(rt: &HostRuntime, words: &[String]) -> Result<()> {
    let alloc = rt.alloc();
    let mut input = Vec::new(alloc);
    rt.stdin().read_to_end(&mut input)?;
    match words.first().map_or("", |word| word.as_str()) {
        "encode" => rt.stdout().write_all(&encode(alloc, &input)?)?,
        "decode" => rt.stdout().write_all(&decode(alloc, &input)?)?,
        "time" => {
            let rounds = words.get(1).map_or("", |word| word.as_str());
            time(rt, alloc, &input, rounds.parse::<u64>().unwrap_or(1))?;
        }
        _ => return err(
            alloc,
            StatusCode::InvalidArgument,
            "encode, decode or time ROUNDS",
        ),
    }
    Ok(())
}

fn main(rt: HostRuntime) -> io::Result<ExitCode> {
    let words: Vec<String> = env::args(&rt)?.skip(1).collect(rt.alloc())?;
    if let Err(status) = run(&rt, &words) {
        eprintln!(rt; "snappy_trials: {status}")?;
        return Ok(ExitCode::from(1));
    }
    Ok(ExitCode::from(0))
}
