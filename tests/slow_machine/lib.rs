//! The slow store: it judges what a store returns, by every state that the store may be in.

mod slow_store;

pub use slow_store::{Found, Item, SlowStore, placed_batch};
