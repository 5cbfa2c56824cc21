//! The library's calls, as its static library exports them, beside the same in plain Rust.

use plain::{Asked, Refusal};

/// What a call of the library says: refusal 0 and a length, or the refusal's number and detail.
#[repr(C)]
struct Answer {
    refusal: u32,
    detail: u32,
    length: usize,
}

// A slice is passed as a pointer and a length.
unsafe extern "C" {
    fn zaldrum_judge(sheet: *const u8, length: usize, text: *mut u8, room: usize) -> Answer;

    fn zaldrum_resume(
        file: *const u8,
        file_length: usize,
        counts: *const u32,
        counts_length: usize,
        spare: u32,
        tally: *const u16,
        tally_length: usize,
        target: *const u32,
        target_length: usize,
        kind: u8,
        order: *mut u16,
        order_length: usize,
    ) -> Answer;
}

fn said(answer: Answer) -> Result<usize, Refusal> {
    match answer.refusal {
        0 => Ok(answer.length),
        number => Err(Refusal {
            number: number as u8,
            detail: answer.detail as u16,
        }),
    }
}

/// Judges a sheet by the library.
pub fn judge(sheet: &[u8], text: &mut [u8]) -> Result<usize, Refusal> {
    // SAFETY: each pointer and length is that of a slice, and the text is lent for the call alone.
    said(unsafe { zaldrum_judge(sheet.as_ptr(), sheet.len(), text.as_mut_ptr(), text.len()) })
}

/// Resumes a tally on a new sitting by the library.
pub fn resume(file: &[u8], asked: Asked<'_>, order: &mut [u16]) -> Result<usize, Refusal> {
    // SAFETY: each pointer and length is that of a slice, and the order is lent for the call alone.
    said(unsafe {
        zaldrum_resume(
            file.as_ptr(),
            file.len(),
            asked.counts.as_ptr(),
            asked.counts.len(),
            asked.spare,
            asked.tally.as_ptr(),
            asked.tally.len(),
            asked.target.as_ptr(),
            asked.target.len(),
            asked.kind,
            order.as_mut_ptr(),
            order.len(),
        )
    })
}
