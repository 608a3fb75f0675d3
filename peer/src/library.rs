//! The library's C entries, as its header declares them.

extern "C" {
    fn ferrulique_run(
        file: *const u8,
        file_len: usize,
        marks: *mut u8,
        marks_len: usize,
        out: *mut u8,
        out_len: usize,
        report: *mut u8,
        report_len: usize,
    ) -> u32;
    fn ferrulique_race(file: *const u8, file_len: usize) -> u64;
}

/// The address to lend: null for an empty buffer where `null` says so.
fn address(buffer: &mut [u8], null: bool) -> *mut u8 {
    if null && buffer.is_empty() {
        std::ptr::null_mut()
    } else {
        buffer.as_mut_ptr()
    }
}

/// Calls the library. With `null`, empty buffers are lent as null pointers, the file too.
pub fn run(file: &mut [u8], [marks, out, report]: [&mut [u8]; 3], null: bool) -> u32 {
    // SAFETY: each pointer is good for the length beside it, and the four do not overlap.
    unsafe {
        ferrulique_run(
            address(file, null),
            file.len(),
            address(marks, null),
            marks.len(),
            address(out, null),
            out.len(),
            address(report, null),
            report.len(),
        )
    }
}

/// Asks the library only whether and where the file races. With `null`, an empty file is lent as a null pointer.
pub fn race(file: &mut [u8], null: bool) -> u64 {
    // SAFETY: the pointer is good for the length beside it.
    unsafe { ferrulique_race(address(file, null), file.len()) }
}
