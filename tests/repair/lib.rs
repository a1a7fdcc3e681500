//! The tests of what is found of a store, and of the tables to which it goes.

#[cfg(test)]
mod found_walks;
#[cfg(test)]
mod lists;
#[cfg(test)]
mod logs;
#[cfg(test)]
mod looks;
#[cfg(test)]
mod tables;
#[cfg(test)]
mod whole;
#[cfg(test)]
mod written;
