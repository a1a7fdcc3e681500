//! The tests of keys, orders, names and bytes.

#[cfg(test)]
mod block_handles;
#[cfg(test)]
mod checksums;
#[cfg(test)]
mod comparators;
#[cfg(test)]
mod file_names;
#[cfg(test)]
mod internal_comparators;
#[cfg(test)]
mod iterators;
#[cfg(test)]
mod keys;
#[cfg(test)]
mod statuses;
#[cfg(test)]
mod varints;
