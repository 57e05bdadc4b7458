//! The calls of the archive, with slices. Nothing compares the declarations with `crates/lot_c`.

use crate::Refusal;

pub const DONE: u32 = 0;
pub const FOUND: u32 = 1;
pub const MALFORMED: u32 = 2;
const BROKEN: u32 = 4;
const NO_ROOM: u32 = 5;

/// How long the buffer is at first, in bytes. A text that is longer takes a second call.
const ROOM: usize = 4096;

/// The same of a search, whose second call searches anew.
const ROOM_OF_SEARCH: usize = 1 << 16;

extern "C" {
    fn lot_replay(
        input: *const u8,
        length: usize,
        output: *mut u8,
        capacity: usize,
        written: *mut usize,
    ) -> u32;

    fn lot_step(
        state: *const u8,
        state_length: usize,
        lines: *const u8,
        lines_length: usize,
        told: usize,
        output: *mut u8,
        capacity: usize,
        written: *mut usize,
    ) -> u32;

    fn lot_explore(
        program: *const u8,
        length: usize,
        states: u32,
        output: *mut u8,
        capacity: usize,
        written: *mut usize,
    ) -> u32;
}

pub fn replay(input: &[u8]) -> Result<(String, u32), Refusal> {
    // SAFETY: the declaration fits `lot_replay` of `crates/lot_c`, which has no `requires`. Each pointer goes with
    // its length, no buffer overlaps another, and all are borrowed for the call.
    told(ROOM, |output, written| unsafe {
        lot_replay(
            input.as_ptr(),
            input.len(),
            output.as_mut_ptr(),
            output.len(),
            written,
        )
    })
}

pub fn step(state: &[u8], lines: &[u8], from: usize) -> Result<(String, u32), Refusal> {
    // SAFETY: as at `replay`.
    told(ROOM, |output, written| unsafe {
        lot_step(
            state.as_ptr(),
            state.len(),
            lines.as_ptr(),
            lines.len(),
            from,
            output.as_mut_ptr(),
            output.len(),
            written,
        )
    })
}

pub fn explore(program: &[u8], states: u32) -> Result<(String, u32), Refusal> {
    // SAFETY: as at `replay`.
    told(ROOM_OF_SEARCH, |output, written| unsafe {
        lot_explore(
            program.as_ptr(),
            program.len(),
            states,
            output.as_mut_ptr(),
            output.len(),
            written,
        )
    })
}

/// Makes a call, once more where its text needs a longer buffer. Returns the text and the status.
fn told(room: usize, mut call: impl FnMut(&mut [u8], &mut usize) -> u32) -> Result<(String, u32), Refusal> {
    let mut output = vec![0; room];
    let mut written = 0;
    let mut status = call(&mut output, &mut written);
    if status == NO_ROOM {
        output.resize(written, 0);
        status = call(&mut output, &mut written);
    }
    if status >= BROKEN {
        return Err(Refusal::NoMemory);
    }
    output.truncate(written);
    // A malformed program's word may be cut from any bytes.
    Ok((String::from_utf8_lossy(&output).into_owned(), status))
}
