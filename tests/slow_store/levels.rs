//! What is asked of files by levels, by trying: the files of a compaction, the level of a new
//! table, and the file that has a key.
use leveldb_base::cmp::Cmp;
use leveldb_base::error::Result;
use leveldb_base::key_types::split_sequence;
use leveldb_base::types::{FileMetaData, FileNum};
use std::alloc::Global;

/// A range of user keys; an end that is none is open.
#[derive(Clone, Copy)]
struct Span<'a> {
    begin: Option<&'a [u8]>,
    end: Option<&'a [u8]>,
}

/// The end that a key names: the empty key is an open end.
fn end_named(key: &[u8]) -> Option<&[u8]> {
    if key.is_empty() { None } else { Some(key) }
}

/// The first and the last user key of a file.
fn span_of(file: &FileMetaData) -> Span<'_> {
    let (first, _) = split_sequence(&file.smallest);
    let (last, _) = split_sequence(&file.largest);
    Span {
        begin: Some(first),
        end: Some(last),
    }
}

/// Whether the first end is before the second, each the begin of a range or each given.
fn is_less<C: Cmp>(cmp: &C, a: Option<&[u8]>, b: Option<&[u8]>) -> bool {
    match (a, b) {
        (Some(a), Some(b)) => cmp.cmp(a, b).is_lt(),
        _ => false,
    }
}

/// Whether two ranges have keys in common, by their ends.
fn meet<C: Cmp>(cmp: &C, a: Span<'_>, b: Span<'_>) -> bool {
    !is_less(cmp, a.end, b.begin) && !is_less(cmp, b.end, a.begin)
}

/// Whether the first range has all keys of the second.
fn covers<C: Cmp>(cmp: &C, a: Span<'_>, b: Span<'_>) -> bool {
    let from = a.begin.is_none() || (b.begin.is_some() && !is_less(cmp, b.begin, a.begin));
    let to = a.end.is_none() || (b.end.is_some() && !is_less(cmp, a.end, b.end));
    from && to
}

/// Whether each file of the level that meets the range is within it.
fn has_whole_files<C: Cmp>(
    cmp: &C,
    files: &[(usize, FileMetaData)],
    level: usize,
    span: Span<'_>,
) -> bool {
    files.iter().all(|file| {
        let its = span_of(&file.1);
        file.0 != level || !meet(cmp, its, span) || covers(cmp, span, its)
    })
}

/// The numbers of the level's files that meet the range, in rising order.
fn numbers_meeting<C: Cmp>(
    alloc: Global,
    cmp: &C,
    files: &[(usize, FileMetaData)],
    level: usize,
    span: Span<'_>,
) -> Result<Vec<FileNum>> {
    let mut numbers = Vec::new(alloc);
    for file in files {
        if file.0 == level && meet(cmp, span_of(&file.1), span) {
            numbers.push(file.1.num)?;
        }
    }
    numbers.sort()?;
    Ok(numbers)
}

/// Whether a range may be the widened one: it covers what is asked for and has its files whole.
fn may_be_widened<C: Cmp>(
    cmp: &C,
    files: &[(usize, FileMetaData)],
    asked: Span<'_>,
    span: Span<'_>,
) -> bool {
    covers(cmp, span, asked) && has_whole_files(cmp, files, 0, span)
}

/// The numbers of the files of level 0 in the least of the ranges with this begin that may be the
/// widened one, or those found before if they are fewer.
fn fewest_from<C: Cmp>(
    alloc: Global,
    cmp: &C,
    files: &[(usize, FileMetaData)],
    asked: Span<'_>,
    begin: Option<&[u8]>,
    ends: &[Option<&[u8]>],
    found: Option<Vec<FileNum>>,
) -> Result<Option<Vec<FileNum>>> {
    let mut fewest = found;
    for end in ends {
        let span = Span { begin, end: *end };
        if may_be_widened(cmp, files, asked, span) {
            let numbers = numbers_meeting(alloc, cmp, files, 0, span)?;
            if fewest
                .as_ref()
                .is_none_or(|fewer| numbers.len() < fewer.len())
            {
                fewest = Some(numbers);
            }
        }
    }
    Ok(fewest)
}

/// The numbers of the files of level 0 that a compaction of a range takes: of all ranges that begin
/// and end with it or with a file, the least that covers it and has its files whole.
fn widened_inputs<C: Cmp>(
    alloc: Global,
    cmp: &C,
    files: &[(usize, FileMetaData)],
    asked: Span<'_>,
) -> Result<Vec<FileNum>> {
    let mut begins = Vec::new(alloc);
    let mut ends = Vec::new(alloc);
    begins.push(asked.begin)?;
    ends.push(asked.end)?;
    for file in files {
        begins.push(span_of(&file.1).begin)?;
        ends.push(span_of(&file.1).end)?;
    }
    let mut fewest = None;
    for begin in &begins {
        fewest = fewest_from(alloc, cmp, files, asked, *begin, ends.as_slice(), fewest)?;
    }
    Ok(fewest.unwrap_or(Vec::new(alloc)))
}

/// The numbers, in rising order, of the files that a compaction of a level takes between two user
/// keys, ends included. An empty key is an open end.
pub fn compaction_inputs<C: Cmp>(
    alloc: Global,
    cmp: &C,
    files: &[(usize, FileMetaData)],
    level: usize,
    begin: &[u8],
    end: &[u8],
) -> Result<Vec<FileNum>> {
    let asked = Span {
        begin: end_named(begin),
        end: end_named(end),
    };
    if level == 0 {
        return widened_inputs(alloc, cmp, files, asked);
    }
    numbers_meeting(alloc, cmp, files, level, asked)
}

/// Whether a file of the level has keys between these user keys.
pub fn has_overlap<C: Cmp>(
    cmp: &C,
    files: &[(usize, FileMetaData)],
    level: usize,
    begin: &[u8],
    end: &[u8],
) -> bool {
    let asked = Span {
        begin: end_named(begin),
        end: end_named(end),
    };
    files.iter().any(|file| file.0 == level && meet(cmp, span_of(&file.1), asked))
}

/// How many bytes the files of the level that have keys between these user keys have together.
fn bytes_meeting<C: Cmp>(
    cmp: &C,
    files: &[(usize, FileMetaData)],
    level: usize,
    begin: &[u8],
    end: &[u8],
) -> usize {
    let asked = Span {
        begin: end_named(begin),
        end: end_named(end),
    };
    let mut bytes: usize = 0;
    for file in files {
        if file.0 == level && meet(cmp, span_of(&file.1), asked) {
            bytes = bytes.saturating_add(file.1.size);
        }
    }
    bytes
}

/// The deepest level up to 2 for a new table with these user keys, for which no level down to it
/// has a file with such keys, and none below these levels has more than 20 MiB of them; else 0.
pub fn new_table_level<C: Cmp>(
    cmp: &C,
    files: &[(usize, FileMetaData)],
    begin: &[u8],
    end: &[u8],
) -> usize {
    let mut deepest = 0;
    for level in [1, 2] {
        let free = (0..=level).all(|above| !has_overlap(cmp, files, above, begin, end));
        let few = (1..=level).all(|above| bytes_meeting(cmp, files, above + 1, begin, end)
            <= 20_971_520);
        if free && few {
            deepest = level;
        }
    }
    deepest
}

/// The numbers of the level's files that have a user key in their range.
pub fn files_with_key<C: Cmp>(
    alloc: Global,
    cmp: &C,
    files: &[(usize, FileMetaData)],
    level: usize,
    key: &[u8],
) -> Result<Vec<FileNum>> {
    let span = Span {
        begin: Some(key),
        end: Some(key),
    };
    numbers_meeting(alloc, cmp, files, level, span)
}
