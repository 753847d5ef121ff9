//! The tablet's call.

extern "C" {
    fn murgolab_tablet_run(
        file: *const u8,
        file_len: usize,
        stride: u32,
        across: u32,
        down: u32,
        out: *mut u8,
        out_len: usize,
    ) -> u64;
}

#[inline]
pub fn tablet_run(file: &[u8], stride: u32, across: u32, down: u32, out: &mut [u8]) -> u64 {
    // SAFETY: the lists are as long as said, and the one lent for writing is borrowed alone
    unsafe { murgolab_tablet_run(file.as_ptr(), file.len(), stride, across, down, out.as_mut_ptr(), out.len()) }
}
