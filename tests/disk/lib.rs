//! The tests of an environment over real files.

#[cfg(test)]
mod calls;
#[cfg(test)]
mod errors;
#[cfg(test)]
mod files;
#[cfg(test)]
mod links;
#[cfg(test)]
mod locks;
#[cfg(test)]
mod scripts;
#[cfg(test)]
mod syncs;
#[cfg(test)]
mod watched;
