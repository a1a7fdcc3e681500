//! The tests of environments, filters and compressors.

#[cfg(test)]
mod bloom_filters;
#[cfg(test)]
mod compressors;
#[cfg(test)]
mod disks;
#[cfg(test)]
mod files;
#[cfg(test)]
mod filter_blocks;
#[cfg(test)]
mod filters;
#[cfg(test)]
mod infologs;
#[cfg(test)]
mod internal_filters;
#[cfg(test)]
mod mem_envs;
#[cfg(test)]
mod options;
#[cfg(test)]
mod records;
