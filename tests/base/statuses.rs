//! What statuses print, and the codes of other errors.
use leveldb_base::error::{Result, Status, StatusCode, err};
use std::alloc::{AllocError, Global};
use std::io;

// Out of memory, if there was none for the text of a status.
fn check_text(status: &Status) -> Result<()> {
    match status.err {
        None => Err(AllocError.into()),
        Some(_) => Ok(()),
    }
}

// Whether a status prints this text.
fn prints(alloc: Global, status: &Status, text: &str) -> Result<bool> {
    check_text(status)?;
    Ok(format!(in alloc; "{status}")?.as_str() == text)
}

// A code and a message, and the text of such a status.
const TEXTS: [(StatusCode, &str, &str); 2] = [
    (
        StatusCode::InvalidData,
        "Invalid data!",
        "InvalidData: Invalid data!",
    ),
    (StatusCode::NotFound, "", "NotFound"),
];

#[test]
fn texts(rt: HostRuntime) -> Result<()> {
    for (code, message, text) in &TEXTS {
        let status = Status::new(rt.alloc(), *code, message);
        assert!(rt; prints(rt.alloc(), &status, text)?);
    }
    Ok(())
}

#[test]
fn text_of_an_error(rt: HostRuntime) -> Result<()> {
    match err::<()>(rt.alloc(), StatusCode::LockError, "held") {
        Ok(()) => panic!(rt; "no error"),
        Err(status) => assert!(rt; prints(rt.alloc(), &status, "LockError: held")?),
    }
    Ok(())
}

#[test]
fn annotated_texts(rt: HostRuntime) -> Result<()> {
    let status = Status::new(rt.alloc(), StatusCode::Corruption, "cut");
    check_text(&status)?;
    let status = status.annotate(rt.alloc(), "block 3");
    assert!(rt; prints(rt.alloc(), &status, "block 3: Corruption: cut")?);
    let status = Status::default().annotate(rt.alloc(), "first");
    assert!(rt; prints(rt.alloc(), &status, "first: ")?);
    Ok(())
}

// Kinds of errors of input and output, and the code of each.
const KINDS: [(io::ErrorKind, StatusCode); 5] = [
    (io::ErrorKind::NotFound, StatusCode::NotFound),
    (io::ErrorKind::InvalidData, StatusCode::Corruption),
    (io::ErrorKind::InvalidInput, StatusCode::InvalidArgument),
    (
        io::ErrorKind::PermissionDenied,
        StatusCode::PermissionDenied,
    ),
    (io::ErrorKind::AlreadyExists, StatusCode::IOError),
];

// A status of this code with no text.
fn bare(code: StatusCode) -> Status {
    Status { code, err: None }
}

#[test]
fn codes_of_kinds(rt: HostRuntime) {
    for (kind, code) in &KINDS {
        assert!(rt; Status::from(io::Error::from(*kind)) == bare(*code));
    }
}

#[test]
fn other_codes(rt: HostRuntime) {
    assert!(rt; Status::default() == bare(StatusCode::OK));
    assert!(rt; Status::from(AllocError) == bare(StatusCode::OutOfMemory));
    assert!(rt; Status::from(io::Error::other("a message")) == bare(StatusCode::IOError));
}
