//! The tests of calls on a store: each call by itself, what it returns and which files it leaves.

#[cfg(test)]
mod acts;
#[cfg(test)]
mod batches;
#[cfg(test)]
mod build_table;
#[cfg(test)]
mod compactions;
#[cfg(test)]
mod compactions_asked;
#[cfg(test)]
mod compactions_due;
#[cfg(test)]
mod compactions_in_openings;
#[cfg(test)]
mod compactions_in_writes;
#[cfg(test)]
mod compactions_of_many;
#[cfg(test)]
mod damage;
#[cfg(test)]
mod empty_tables;
#[cfg(test)]
mod engines;
#[cfg(test)]
mod failed_openings;
#[cfg(test)]
mod few_bytes;
#[cfg(test)]
mod file_bounds;
#[cfg(test)]
mod iterators;
#[cfg(test)]
mod level_loads;
#[cfg(test)]
mod long;
#[cfg(test)]
mod memory;
#[cfg(test)]
mod merged_inputs;
#[cfg(test)]
mod merging;
#[cfg(test)]
mod no_requests;
#[cfg(test)]
mod open_tables;
#[cfg(test)]
mod openings;
#[cfg(test)]
mod outputs;
#[cfg(test)]
mod read_alone;
#[cfg(test)]
mod readers;
#[cfg(test)]
mod real_folders;
#[cfg(test)]
mod refusals;
#[cfg(test)]
mod repairs;
#[cfg(test)]
mod repairs_of_damage;
#[cfg(test)]
mod replays;
#[cfg(test)]
mod rooms;
#[cfg(test)]
mod samples;
#[cfg(test)]
mod scans;
#[cfg(test)]
mod sinks;
#[cfg(test)]
mod slow_samples;
#[cfg(test)]
mod snapshot_calls;
#[cfg(test)]
mod stores;
#[cfg(test)]
mod theirs;
