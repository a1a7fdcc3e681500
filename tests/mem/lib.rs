//! The tests of logs, batches and memtables.

#[cfg(test)]
mod checks;
#[cfg(test)]
mod log_files;
#[cfg(test)]
mod logs;
#[cfg(test)]
mod memtables;
#[cfg(test)]
mod skipmap_orders;
#[cfg(test)]
mod skipmaps;
#[cfg(test)]
mod write_batches;
