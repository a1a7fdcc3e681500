//! The tests of walks and their merge.

mod children;
#[cfg(test)]
mod merges;
#[cfg(test)]
mod moves;
#[cfg(test)]
mod snapshots;
#[cfg(test)]
mod views;
