//! What a store's files hold by their definition, read plainly: a yardstick for tests, and no part
//! of a store.

mod compaction;
mod files;
mod found;
mod levels;
mod live_levels;
mod set;
mod table;

pub use compaction::{TableEntry, TableSpan, Trial, has, tables_to_compact, value_at, with};
pub use files::{Contents, read_store};
pub use found::{Found, read_found};
pub use levels::{compaction_inputs, files_with_key, has_overlap, new_table_level};
pub use live_levels::{has_levels, levels_of};
pub use table::table_pairs;
