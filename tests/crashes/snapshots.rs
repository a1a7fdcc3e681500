//! Snapshots and walks of the program.
use super::program::assert_run;
use leveldb_env::mem_env::MemEnv;
use std::io;

/// Inputs one after another over one disk, each with its output.
const ROWS: [(&[u8], &[u8]); 13] = [
    (
        b"write 1 +61=31 -62\nget 61\nget 62\nsnap\nput 61 32\ngetat 0 61\nwalk now first next prev\nrelease 0\ngetat 0 61\n",
        b"ok\nvalue 31\nnone\nsnapshot 0\nok\nvalue 31\nat 61 32\ninvalid\ninvalid\nok\nrefused InvalidArgument\n",
    ),
    (b"get 61\n", b"value 32\n"),
    // A snapshot reads what the store had, until it is released.
    (
        b"put 6b 31\nsnap\nput 6b 32\ngetat 0 6b\nget 6b\nrelease 0\ngetat 0 6b\nrelease 0\nwalk 0 first\nget 6b",
        b"ok\nsnapshot 0\nok\nvalue 31\nvalue 32\nok\nrefused InvalidArgument\nrefused InvalidArgument\n\
refused InvalidArgument\nvalue 32\n",
    ),
    // Numbers count from 0 in each run, and a number that was never given is refused. Zeros before
    // a number say nothing.
    (
        b"getat 0 6b\nsnap\nsnap\nrelease 0\nsnap\ngetat 001 6b\ngetat 3 6b\nrelease 18446744073709551615\nrelease 00\ngetat 2 61",
        b"refused InvalidArgument\nsnapshot 0\nsnapshot 1\nok\nsnapshot 2\nvalue 32\nrefused InvalidArgument\n\
refused InvalidArgument\nrefused InvalidArgument\nvalue 32\n",
    ),
    (
        b"write 0 -61 -6b +61=31 +62=32 +63=33\ndel 62\nwalk now seek=63 prev prev prev next",
        b"ok\nok\nat 63 33\nat 61 31\ninvalid\ninvalid\nat 61 31\n",
    ),
    (
        b"walk now next next next next prev",
        b"at 61 31\nat 63 33\ninvalid\nat 61 31\ninvalid\n",
    ),
    (
        b"walk now seek=62 seek=. seek=64 next seek=6100 first",
        b"at 63 33\nat 61 31\ninvalid\nat 61 31\nat 63 33\nat 61 31\n",
    ),
    // A walk over a snapshot, beside one over the store as it is.
    (
        b"snap\nwrite 0 -61 +62=34 -63\nwalk 0 first next next\nwalk now first next\nwalk 0 seek=62 prev",
        b"snapshot 0\nok\nat 61 31\nat 63 33\ninvalid\nat 62 34\ninvalid\nat 63 33\nat 61 31\n",
    ),
    // A walk without a move has no reply.
    (b"snap\nwalk now\nwalk 0\nflush", b"snapshot 0\nok\n"),
    (b"walk 0", b"refused InvalidArgument\n"),
    (
        b"del 62\nwalk now next first prev seek=.",
        b"ok\ninvalid\ninvalid\ninvalid\ninvalid\n",
    ),
    (
        b"put . .\nget .\nwalk now first next seek=.",
        b"ok\nvalue .\nat . .\ninvalid\nat . .\n",
    ),
    (
        b"snap\nclose\nsnap\ngetat 0 .\nwalk 0 first\nwalk now first\nrelease 0",
        b"snapshot 0\nok\nrefused InvalidArgument\nrefused InvalidArgument\nrefused InvalidArgument\n\
refused InvalidArgument\nrefused InvalidArgument\n",
    ),
];

#[test]
fn snapshots_and_walks(rt: HostRuntime) -> io::Result<()> {
    let mut env = MemEnv::new(rt.alloc());
    for (input, out) in &ROWS {
        assert_run(&rt, &mut env, rt.alloc(), &["db"], input, (0, out, b""))?;
    }
    Ok(())
}
