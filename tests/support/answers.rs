//! Questions to what a call returned.
use leveldb_base::error::{Result, StatusCode};

/// Whether a call failed with this code. Out of memory is passed on, so that a test ends with it
/// (tools/refuse).
pub fn failed_with<T: Drop>(answer: Result<T>, code: StatusCode) -> Result<bool> {
    let Err(status) = answer else {
        return Ok(false);
    };
    if status.code == StatusCode::OutOfMemory {
        return Err(status);
    }
    Ok(status.code == code)
}

/// What a call returned, but out of memory is passed on.
pub fn answered<T>(answer: Result<T>) -> Result<Result<T>> {
    match answer {
        Ok(value) => Ok(Ok(value)),
        Err(status) if status.code == StatusCode::OutOfMemory => Err(status),
        Err(status) => Ok(Err(status)),
    }
}

/// The code of what a call returned.
pub fn code_of(answer: &Result<()>) -> StatusCode {
    match answer {
        Ok(()) => StatusCode::OK,
        Err(status) => status.code,
    }
}
