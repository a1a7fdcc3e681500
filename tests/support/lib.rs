//! What suites of several crates share: questions to answers, changed bytes, the files of a store,
//! a list to walk over, numbers that look random, compressors, devices, marks around calls, and a
//! log that expects a line.

mod answers;
mod compressors;
mod damage;
mod folder;
mod lists;
mod marks;
mod random;
mod ruled;
mod sinks;

pub use answers::{answered, code_of, failed_with};
pub use compressors::{Raised, Refusing};
pub use damage::change_byte;
pub use folder::{
    Change, File, bytes_in, damage_file, disk_of, disk_with, file_bytes, files_on, is_free,
    lose_manifest, put_file,
};
pub use lists::Listed;
pub use marks::Marks;
pub use random::Random;
pub use ruled::{CountedAppends, OnlyReads, ShortReads};
pub use sinks::Lines;
