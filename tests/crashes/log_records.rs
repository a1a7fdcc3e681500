//! Logs and manifests as lists of records.
use leveldb_base::error::Result;
use leveldb_mem::log::{LogReader, LogWriter};
use std::alloc::Global;

/// The records of a log, up to the first that can't be read.
pub fn records_of(alloc: Global, log: &[u8]) -> Result<Vec<Vec<u8>>> {
    let mut reader = LogReader::new(alloc, log, true);
    let mut records = Vec::new(alloc);
    let mut record = Vec::new(alloc);
    while let Ok(length) = reader.read(&mut record) {
        if length == 0 {
            break;
        }
        records.push(record.clone()?)?;
    }
    Ok(records)
}

/// A log of these records.
pub fn log_of(alloc: Global, records: &[Vec<u8>]) -> Result<Vec<u8>> {
    let mut writer = LogWriter::new(alloc, Vec::new(alloc));
    for record in records {
        writer.add_record(record)?;
    }
    Ok(writer.sink)
}
