//! The tests of runs: sequences of calls with crashes and failures of the device, judged by a slow
//! store, and the program.

#[cfg(test)]
mod by_score;
#[cfg(test)]
mod compactions;
#[cfg(test)]
mod crash_disks;
#[cfg(test)]
mod crashes;
#[cfg(test)]
mod damaged_files;
#[cfg(test)]
mod damaged_rows;
#[cfg(test)]
mod failed_calls;
#[cfg(test)]
mod fuzzed_files;
#[cfg(test)]
mod lives;
#[cfg(test)]
mod log_records;
#[cfg(test)]
mod long;
#[cfg(test)]
mod program;
#[cfg(test)]
mod random_commands;
#[cfg(test)]
mod read_alone;
#[cfg(test)]
mod real_files;
#[cfg(test)]
mod refused_memory;
#[cfg(test)]
mod replies;
#[cfg(test)]
mod rows;
#[cfg(test)]
mod snapshots;
#[cfg(test)]
mod steps;
#[cfg(test)]
mod sweep;
#[cfg(test)]
mod sweeps;
#[cfg(test)]
mod switches;
#[cfg(test)]
mod twelve_keys;
#[cfg(test)]
mod views;
