//! The tests of what is printed of a store's files.

#[cfg(test)]
mod checked;
#[cfg(test)]
mod compressed;
#[cfg(test)]
mod damaged;
#[cfg(test)]
mod files;
#[cfg(test)]
mod printed;
#[cfg(test)]
mod state;
#[cfg(test)]
mod theirs;
#[cfg(test)]
mod words;
