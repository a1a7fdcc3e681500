//! The tests of Snappy.

#[cfg(test)]
mod damaged;
#[cfg(test)]
mod long;
#[cfg(test)]
mod round_trips;
mod slow;
#[cfg(test)]
mod texts;
#[cfg(test)]
mod vectors;
