//! Removes a folder with all that is in it. Each name is opened or removed by the open folder that it
//! is in, so that no link is followed that another process puts there.
use super::{checked, is_inside, owned, read_names};
use std::alloc::Global;
use std::io::{ErrorKind, Result};
use std::os::fd::{AsRawFd, OwnedFd};

/// Removes the folder; a link of its name is removed alone.
pub(super) fn remove_folder(alloc: Global, folder: &str) -> Result<()> {
    let name = folder.trim_end_matches('/').as_bytes();
    if is_link(name)? {
        return checked(os::unlink(name));
    }
    let root = open_folder_at(libc::AT_FDCWD, name)?;
    for _ in 0..u64::MAX {
        if !remove_one_below(alloc, &root)? {
            break;
        }
    }
    checked(os::rmdir(name))
}

fn is_link(name: &[u8]) -> Result<bool> {
    let mut found = super::no_node();
    checked(os::statx(libc::AT_FDCWD, name, libc::AT_SYMLINK_NOFOLLOW, &mut found))?;
    Ok(u32::from(found.stx_mode) & libc::S_IFMT == libc::S_IFLNK)
}

fn open_folder_at(above: i32, name: &[u8]) -> Result<OwnedFd> {
    owned(os::open_dir_at(above, name))
}

// Removes the files of the root, and one folder below it that has no folders, with its files. Returns
// whether there was one.
fn remove_one_below(alloc: Global, root: &OwnedFd) -> Result<bool> {
    let mut folder = open_folder_at(root.as_raw_fd(), b".")?;
    let mut below = remove_files(alloc, &folder)?;
    for depth in 0..u64::MAX {
        let Some(name) = below else {
            return Ok(depth > 0);
        };
        let next = open_folder_at(folder.as_raw_fd(), name.as_slice())?;
        below = remove_files(alloc, &next)?;
        if below.is_none() {
            checked(os::rmdir_at(folder.as_raw_fd(), name.as_slice()))?;
            return Ok(true);
        }
        folder = next;
    }
    Ok(true)
}

// Removes the files of a folder, up to the first folder in it: that one's name, if there is one.
fn remove_files(alloc: Global, folder: &OwnedFd) -> Result<Option<Vec<u8>>> {
    let mut read = [0; 4096];
    for _ in 0..u64::MAX {
        let count = read_names(folder, &mut read)?;
        if count == 0 {
            break;
        }
        for name in read[..count].split(|byte| *byte == 0) {
            if is_inside(name) && !remove_file(folder, name)? {
                return Ok(Some(name.to_vec(alloc)?));
            }
        }
    }
    Ok(None)
}

// Removes the file of a name, unless it is a folder's; returns whether it is none.
fn remove_file(folder: &OwnedFd, name: &[u8]) -> Result<bool> {
    match checked(os::unlink_at(folder.as_raw_fd(), name)) {
        Err(error) if error.kind() == ErrorKind::IsADirectory => Ok(false),
        Err(error) if error.kind() == ErrorKind::NotFound => Ok(true),
        removed => removed.map(|()| true),
    }
}
