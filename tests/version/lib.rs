//! The tests of version edits, of the names that a version set makes, and of what small stores
//! hold.

#[cfg(test)]
mod changes;
#[cfg(test)]
mod choices;
#[cfg(test)]
mod compactions;
#[cfg(test)]
mod crate_choices;
#[cfg(test)]
mod gets;
#[cfg(test)]
mod logs;
#[cfg(test)]
mod manifests;
#[cfg(test)]
mod random_choices;
#[cfg(test)]
mod recovers;
#[cfg(test)]
mod samples;
#[cfg(test)]
mod set_compactions;
#[cfg(test)]
mod store_files;
#[cfg(test)]
mod store_sweeps;
#[cfg(test)]
mod stored;
#[cfg(test)]
mod stores;
#[cfg(test)]
mod table_caches;
#[cfg(test)]
mod version_edits;
#[cfg(test)]
mod version_set_calls;
#[cfg(test)]
mod version_sets;
#[cfg(test)]
mod versions;
