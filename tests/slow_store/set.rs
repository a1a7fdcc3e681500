//! What a manifest's edits leave.
use leveldb_base::error::{Result, StatusCode, err};
use leveldb_base::types::{FileMetaData, FileNum, MAX_SEQUENCE_NUMBER, SequenceNumber};
use leveldb_version::version_edit::VersionEdit;
use std::alloc::Global;

/// The live files with their levels, and the single values that were set last.
#[derive(Debug, Drop)]
pub struct FileSet {
    pub comparator: Option<String>,
    pub log: Option<FileNum>,
    pub previous_log: Option<FileNum>,
    pub next_file: Option<FileNum>,
    pub last: Option<SequenceNumber>,
    pub files: Vec<(usize, FileMetaData)>,
}

impl FileSet {
    /// Nothing was set yet.
    pub fn new(alloc: Global) -> FileSet {
        FileSet {
            comparator: None,
            log: None,
            previous_log: None,
            next_file: None,
            last: None,
            files: Vec::new(alloc),
        }
    }

    /// Whether a log of this number is replayed.
    pub fn replays(&self, number: FileNum) -> bool {
        self.log.is_some_and(|log| log <= number)
            || (number > 0 && self.previous_log == Some(number))
    }

    /// Without the file of a level and a number.
    fn drop_file(&mut self, alloc: Global, level: usize, number: FileNum) -> Result<()> {
        let files = std::mem::replace(&mut self.files, Vec::new(alloc));
        for file in files {
            if file.0 != level || file.1.num != number {
                self.files.push(file)?;
            }
        }
        Ok(())
    }

    /// With one more edit: its values count, and it deletes files before it adds some.
    pub fn apply(&mut self, alloc: Global, edit: VersionEdit) -> Result<()> {
        if edit.last_seq.is_some_and(|last| last > MAX_SEQUENCE_NUMBER) {
            return err(
                alloc,
                StatusCode::Corruption,
                "an edit's last number is too great",
            );
        }
        for (level, number) in &edit.deleted {
            self.drop_file(alloc, *level, *number)?;
        }
        for (level, file) in edit.new_files {
            self.drop_file(alloc, level, file.num)?;
            self.files.push((level, file))?;
        }
        self.comparator = edit.comparator.or(self.comparator.take());
        self.log = edit.log_number.or(self.log);
        self.previous_log = edit.prev_log_number.or(self.previous_log);
        self.next_file = edit.next_file_number.or(self.next_file);
        self.last = edit.last_seq.or(self.last);
        Ok(())
    }
}
