//! Lists of moves of a walk over a list in memory.
use super::children::{Device, Source, list_of};
use leveldb_base::cmp::DefaultCmp;
use leveldb_base::error::{Result, Status, StatusCode};
use leveldb_iter::moves::{Move, Step, make_moves};
use std::alloc::{AllocError, Global};

// The moves of letters: f to the first pair, n to the next, p to the one before, and s to the first
// at or after "d".
fn moves_of(alloc: Global, letters: &[u8]) -> Result<Vec<Move>> {
    let mut moves = Vec::new(alloc);
    for letter in letters {
        moves.push(match letter {
            b'f' => Move::First,
            b'n' => Move::Next,
            b'p' => Move::Prev,
            _ => Move::Seek(b"d".to_vec(alloc)?),
        })?;
    }
    Ok(moves)
}

// Where steps led: the letter of the key, '-' for no position, and '!' where the device failed. Err: a move found no memory.
fn text_of(alloc: Global, steps: &[Step]) -> Result<Vec<u8>> {
    let mut text = Vec::new(alloc);
    for step in steps {
        text.push(match step {
            Step::At(key, value) => match (key.as_slice(), value.as_slice()) {
                ([letter], [same]) if letter == same => *letter,
                _ => b'?',
            },
            Step::Invalid => b'-',
            Step::Refused(status) if status.code == StatusCode::OutOfMemory => {
                return Err(Status::from(AllocError));
            }
            Step::Refused(status) if status.code == StatusCode::IOError => b'!',
            Step::Refused(_) => b'?',
        })?;
    }
    Ok(text)
}

// Where these moves lead in the list of the keys a, c and e, with so many calls of the device
// before one that fails.
fn walked(alloc: Global, letters: &[u8], calls_left: u64) -> Result<Vec<u8>> {
    let mut list: Source<DefaultCmp> = Source {
        list: list_of(alloc, "ace")?,
    };
    let mut device = Device { calls_left };
    let moves = moves_of(alloc, letters)?;
    let mut steps = Vec::with_capacity(alloc, moves.len())?;
    make_moves(
        alloc,
        &mut list,
        &mut device,
        &mut (),
        moves.as_slice(),
        &mut steps,
    );
    text_of(alloc, steps.as_slice())
}

#[test]
fn each_move_leads_where_it_leads_in_the_list(rt: HostRuntime) -> Result<()> {
    let there = walked(rt.alloc(), b"fnnnnp", u64::MAX)?;
    assert!(rt; there.as_slice() == b"ace-a-".as_slice());
    let back = walked(rt.alloc(), b"sppppn", u64::MAX)?;
    assert!(rt; back.as_slice() == b"eca--a".as_slice());
    Ok(())
}

#[test]
fn a_refused_move_leaves_no_position_and_the_list_goes_on(rt: HostRuntime) -> Result<()> {
    let steps = walked(rt.alloc(), b"fnnn", 1)?;
    assert!(rt; steps.as_slice() == b"a!ac".as_slice());
    Ok(())
}
