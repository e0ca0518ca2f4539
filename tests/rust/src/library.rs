//! The five C calls of `include/runin.h`, on slices.

mod c {
    extern "C" {
        pub fn runin_read_pattern(text: *const u8, text_len: usize, pattern: *mut u16, pattern_len: usize) -> u64;
        pub fn runin_read_log(text: *const u8, text_len: usize, label_count: u16, log: *mut u16, log_len: usize) -> u64;
        pub fn runin_judge(
            pattern: *const u16,
            pattern_len: usize,
            log: *const u16,
            log_len: usize,
            result: *mut u16,
            result_len: usize,
            work: *mut u16,
            work_len: usize,
        ) -> u64;
        pub fn runin_write_pattern(
            pattern: *const u16,
            pattern_len: usize,
            header: *const u8,
            header_len: usize,
            text: *mut u8,
            text_len: usize,
        ) -> u64;
        pub fn runin_write_log(log: *const u16, log_len: usize, label_count: u16, text: *mut u8, text_len: usize) -> u64;
    }
}

// SAFETY of all five: a slice's pointer is valid and aligned for its length (also where that is 0), and slices that are borrowed mutably
// overlap no other. This is all that the header asks. What is only read is borrowed mutably too: of a shared slice the compiler may take
// for granted what is to be found out, that it stays as it was.

pub fn read_pattern(text: &mut [u8], pattern: &mut [u16]) -> u64 {
    unsafe { c::runin_read_pattern(text.as_mut_ptr(), text.len(), pattern.as_mut_ptr(), pattern.len()) }
}

pub fn read_log(text: &mut [u8], label_count: u16, log: &mut [u16]) -> u64 {
    unsafe { c::runin_read_log(text.as_mut_ptr(), text.len(), label_count, log.as_mut_ptr(), log.len()) }
}

pub fn judge(pattern: &mut [u16], log: &mut [u16], result: &mut [u16], work: &mut [u16]) -> u64 {
    let (pattern_len, log_len, result_len, work_len) = (pattern.len(), log.len(), result.len(), work.len());
    let (pattern, log, result, work) = (pattern.as_mut_ptr(), log.as_mut_ptr(), result.as_mut_ptr(), work.as_mut_ptr());
    unsafe { c::runin_judge(pattern, pattern_len, log, log_len, result, result_len, work, work_len) }
}

pub fn write_pattern(pattern: &mut [u16], header: &mut [u8], text: &mut [u8]) -> u64 {
    let (pattern_len, header_len, text_len) = (pattern.len(), header.len(), text.len());
    let (pattern, header, text) = (pattern.as_mut_ptr(), header.as_mut_ptr(), text.as_mut_ptr());
    unsafe { c::runin_write_pattern(pattern, pattern_len, header, header_len, text, text_len) }
}

pub fn write_log(log: &mut [u16], label_count: u16, text: &mut [u8]) -> u64 {
    unsafe { c::runin_write_log(log.as_mut_ptr(), log.len(), label_count, text.as_mut_ptr(), text.len()) }
}
