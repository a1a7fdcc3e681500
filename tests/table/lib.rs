//! The tests of tables, from their blocks up.

#[cfg(test)]
mod block_builders;
#[cfg(test)]
mod blocks;
#[cfg(test)]
mod caches;
#[cfg(test)]
mod checks;
#[cfg(test)]
mod footers;
pub mod passed;
#[cfg(test)]
mod readable;
#[cfg(test)]
mod round_trip;
#[cfg(test)]
mod table_blocks;
#[cfg(test)]
mod table_builders;
#[cfg(test)]
mod tables;
