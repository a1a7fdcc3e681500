//! Many more bytes beside the slow program.
use super::damaged::read_beside_the_slow_program;
use leveldb_base::error::Result;

#[test]
fn five_million_beside_the_slow_program(rt: HostRuntime) -> Result<()> {
    let texts = read_beside_the_slow_program(&rt, rt.alloc(), 11, 5_000_000)?;
    println!(rt; "{texts} texts")?;
    Ok(())
}
