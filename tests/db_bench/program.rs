//! The program: it runs the rows that it is asked for, one after another.
ghost use Rattle.std.specs.Prelude.{◌≡◌, ◌<◌, ◌≤◌};

use crate::disks::{Disks, Folder, Memory};
use crate::flags::{Fault, Flags, Scale, parse};
use crate::report::Run;
use crate::rows::{Row, Task, measure};
use leveldb_base::error::Result;
use std::alloc::Global;
use std::fs::File;
use std::io::Write;
use std::rt::Files;
use std::time::Clock;

/// Runs the rows that the words ask for. What each did is a line of `out`, how long it took one of
/// `err`, and so is a fault. The status is 0 if all rows were run and written, 2 if a word is none
/// of the flags, and 1 if a call failed.
pub fn bench_main<R: Files<File = File> + Clock + AllocGlobal + Copy + Drop, O: Write, F: Write>(
    alloc: Global,
    rt: R,
    words: &[String],
    out: &mut O,
    err: &mut F,
) -> u8
    ensures untouched { result ≡ 2 → out.new ≡ out.old }
    ensures statuses { result ≤ 2 }
{
    let flags = match parse(alloc, words) {
        Ok(flags) => flags,
        Err(fault) => return tell_fault(err, fault),
    };
    match run_on_disks(alloc, rt, &flags, out, err) {
        Ok(()) => 0,
        Err(status) => {
            tell_fault(err, Fault::Failed(status));
            1
        }
    }
}

// Writes a fault's line, as far as it can be written, and returns its status.
fn tell_fault<F: Write>(err: &mut F, fault: Fault) -> u8
    ensures { result ≤ 2 }
{
    let _ = writeln!(err, "{fault}");
    let _ = err.flush();
    match fault {
        Fault::Usage => 2,
        Fault::Failed(_) => 1,
    }
}

// Runs the tasks in memory, or in the folder that is asked for.
fn run_on_disks<R: Files<File = File> + Clock + AllocGlobal + Copy + Drop, O: Write, F: Write>(
    alloc: Global,
    rt: R,
    flags: &Flags<'_>,
    out: &mut O,
    err: &mut F,
) -> Result<()> {
    let Some(folder) = flags.folder else {
        return run_tasks(alloc, &rt, &Memory(alloc), flags, out, err);
    };
    let path = format!(in alloc; "{folder}/bench")?;
    run_tasks(alloc, &rt, &Folder { rt, path }, flags, out, err)
}

// Runs the tasks one after another.
fn run_tasks<K: Clock, D: Disks, O: Write, F: Write>(
    alloc: Global,
    clock: &K,
    disks: &D,
    flags: &Flags<'_>,
    out: &mut O,
    err: &mut F,
) -> Result<()> {
    for task in &tasks_of(alloc, flags)? {
        let run = measure(alloc, clock, disks, *task)?;
        write_run(alloc, task.row, run, out, err)?;
    }
    Ok(())
}

// The rows at their sizes.
fn tasks_of(alloc: Global, flags: &Flags<'_>) -> Result<Vec<Task>> {
    let mut tasks = Vec::new(alloc);
    for row in &flags.rows {
        add_tasks(&mut tasks, flags, *row)?;
    }
    Ok(tasks)
}

// Adds a row at its sizes.
fn add_tasks(tasks: &mut Vec<Task>, flags: &Flags<'_>, row: Row) -> Result<()> {
    let num = flags.num;
    if !row.grows() {
        return add_task(tasks, flags, row, num);
    }
    add_task(tasks, flags, row, (num + 9) / 10)?;
    add_task(tasks, flags, row, (3 * num + 9) / 10)?;
    add_task(tasks, flags, row, num)?;
    add_task(tasks, flags, row, 2 * num)
}

fn add_task(tasks: &mut Vec<Task>, flags: &Flags<'_>, row: Row, num: u64) -> Result<()>
    requires some { 0 < num }
    requires few { num ≤ 20000000 }
{
    let scale = Scale {
        num,
        value_size: flags.value_size,
        cache_size: flags.cache_size,
        write_buffer_size: flags.write_buffer_size,
    };
    tasks.push(Task { row, scale })?;
    Ok(())
}

// Writes what a row did and how long it took.
fn write_run<O: Write, F: Write>(
    alloc: Global,
    row: Row,
    run: Run,
    out: &mut O,
    err: &mut F,
) -> Result<()> {
    let name = row.name();
    let did = run.outcome.line(alloc, name)?;
    out.write_all(did.as_bytes())?;
    out.flush()?;
    let took = run.line(alloc, name)?;
    err.write_all(took.as_bytes())?;
    err.flush()?;
    Ok(())
}
