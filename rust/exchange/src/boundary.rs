//! The C boundary: the ten functions of `libexchange.a`, each over Rust slices. All unsafe code
//! of the crate is here.
//!
//! The functions have no other duty for a caller than that each slice is what its pointer and
//! length say, that nothing else touches a lent area during the call, and that the stack is large
//! enough. They read no other memory, keep nothing between calls and always return.

/// A slice crosses as its pointer and its length; an empty Rust slice has a pointer that is not
/// null. Everything else is 64 bits wide.
mod library {
    extern "C" {
        pub fn exchange_check(question: *const u8, question_len: usize) -> u64;
        pub fn exchange_steps(
            question: *const u8,
            question_len: usize,
            side: u64,
            new_name: u64,
            area: *mut u8,
            area_len: usize,
        ) -> u64;
        pub fn exchange_merge(
            question: *const u8,
            question_len: usize,
            a: u64,
            b: u64,
            area: *mut u8,
            area_len: usize,
        ) -> u64;
        pub fn exchange_beside(
            question: *const u8,
            question_len: usize,
            third: *const u8,
            third_len: usize,
            area: *mut u8,
            area_len: usize,
        ) -> u64;
        pub fn exchange_convert_down(
            question: *const u8,
            question_len: usize,
            area: *mut u8,
            area_len: usize,
        ) -> u64;
        pub fn exchange_convert_up(
            question: *const u8,
            question_len: usize,
            area: *mut u8,
            area_len: usize,
        ) -> u64;
        pub fn exchange_judge(
            question: *const u8,
            question_len: usize,
            capacity: u64,
            work: *mut u8,
            work_len: usize,
        ) -> u64;
        pub fn exchange_late(
            question: *const u8,
            question_len: usize,
            capacity: u64,
            work: *mut u8,
            work_len: usize,
        ) -> u64;
        pub fn exchange_early(
            question: *const u8,
            question_len: usize,
            capacity: u64,
            work: *mut u8,
            work_len: usize,
        ) -> u64;
        pub fn exchange_apart(
            question: *const u8,
            question_len: usize,
            capacity: u64,
            names: *const u8,
            names_len: usize,
            work: *mut u8,
            work_len: usize,
            area: *mut u8,
            area_len: usize,
        ) -> u64;
    }
}

pub fn check(question: &[u8]) -> u64 {
    // SAFETY: pointer and length are those of a slice that is borrowed until the call returns.
    unsafe { library::exchange_check(question.as_ptr(), question.len()) }
}

pub fn steps(question: &[u8], side: u64, new_name: u64, area: &mut [u8]) -> u64 {
    let (question, question_len) = (question.as_ptr(), question.len());
    let (area, area_len) = (area.as_mut_ptr(), area.len());
    // SAFETY: as in `check`; the area is borrowed for the call alone, so the two do not overlap.
    unsafe { library::exchange_steps(question, question_len, side, new_name, area, area_len) }
}

pub fn merge(question: &[u8], a: u64, b: u64, area: &mut [u8]) -> u64 {
    let (question, question_len) = (question.as_ptr(), question.len());
    let (area, area_len) = (area.as_mut_ptr(), area.len());
    // SAFETY: as in `steps`.
    unsafe { library::exchange_merge(question, question_len, a, b, area, area_len) }
}

pub fn beside(question: &[u8], third: &[u8], area: &mut [u8]) -> u64 {
    let (question, question_len) = (question.as_ptr(), question.len());
    let (third, third_len) = (third.as_ptr(), third.len());
    let (area, area_len) = (area.as_mut_ptr(), area.len());
    // SAFETY: as in `steps`; question and third part are only read, so they may overlap.
    unsafe { library::exchange_beside(question, question_len, third, third_len, area, area_len) }
}

pub fn convert_down(question: &[u8], area: &mut [u8]) -> u64 {
    let (question, question_len) = (question.as_ptr(), question.len());
    let (area, area_len) = (area.as_mut_ptr(), area.len());
    // SAFETY: as in `steps`.
    unsafe { library::exchange_convert_down(question, question_len, area, area_len) }
}

pub fn convert_up(question: &[u8], area: &mut [u8]) -> u64 {
    let (question, question_len) = (question.as_ptr(), question.len());
    let (area, area_len) = (area.as_mut_ptr(), area.len());
    // SAFETY: as in `steps`.
    unsafe { library::exchange_convert_up(question, question_len, area, area_len) }
}

pub fn judge(question: &[u8], capacity: u64, work: &mut [u8]) -> u64 {
    let (question, question_len) = (question.as_ptr(), question.len());
    let (work, work_len) = (work.as_mut_ptr(), work.len());
    // SAFETY: as in `steps`.
    unsafe { library::exchange_judge(question, question_len, capacity, work, work_len) }
}

pub fn judge_late(question: &[u8], capacity: u64, work: &mut [u8]) -> u64 {
    let (question, question_len) = (question.as_ptr(), question.len());
    let (work, work_len) = (work.as_mut_ptr(), work.len());
    // SAFETY: as in `steps`.
    unsafe { library::exchange_late(question, question_len, capacity, work, work_len) }
}

pub fn judge_early(question: &[u8], capacity: u64, work: &mut [u8]) -> u64 {
    let (question, question_len) = (question.as_ptr(), question.len());
    let (work, work_len) = (work.as_mut_ptr(), work.len());
    // SAFETY: as in `steps`.
    unsafe { library::exchange_early(question, question_len, capacity, work, work_len) }
}

pub fn apart(
    question: &[u8],
    capacity: u64,
    names: &[u8],
    work: &mut [u8],
    area: &mut [u8],
) -> u64 {
    let (question, question_len) = (question.as_ptr(), question.len());
    let (names, names_len) = (names.as_ptr(), names.len());
    let (work, work_len) = (work.as_mut_ptr(), work.len());
    let (area, area_len) = (area.as_mut_ptr(), area.len());
    // SAFETY: as in `beside`; the two areas are borrowed for the call alone.
    unsafe {
        library::exchange_apart(
            question,
            question_len,
            capacity,
            names,
            names_len,
            work,
            work_len,
            area,
            area_len,
        )
    }
}
