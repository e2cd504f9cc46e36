//! The calls as `capi/fugu.h` has them, over slices: any memory and any part may be handed to them.
//!
//! A call that tells something returns how many words it wrote into the lent part: 0 where that is
//! too short, and then neither the memory nor the part has changed.

mod raw {
    extern "C" {
        pub fn fugu_size() -> u32;
        pub fn fugu_power_on(
            memory: *mut u32,
            memory_length: usize,
            report: *mut u32,
            report_length: usize,
        ) -> u32;
        pub fn fugu_test(memory: *const u32, memory_length: usize) -> u32;
        pub fn fugu_step(
            memory: *mut u32,
            memory_length: usize,
            letter: u8,
            arguments: *const u32,
            arguments_length: usize,
            report: *mut u32,
            report_length: usize,
        ) -> u32;
        pub fn fugu_line(
            memory: *mut u32,
            memory_length: usize,
            text: *const u8,
            text_length: usize,
            report: *mut u32,
            report_length: usize,
        ) -> u32;
        pub fn fugu_head(
            memory: *const u32,
            memory_length: usize,
            part: *mut u32,
            part_length: usize,
        ) -> u32;
        pub fn fugu_paging(
            memory: *const u32,
            memory_length: usize,
            part: *mut u32,
            part_length: usize,
        ) -> u32;
        pub fn fugu_why(
            memory: *mut u32,
            memory_length: usize,
            script: *const u8,
            script_length: usize,
            line: u32,
            part: *mut u32,
            part_length: usize,
        ) -> u32;
        pub fn fugu_tell(
            memory: *mut u32,
            memory_length: usize,
            state: *mut u64,
            state_length: usize,
            kept: *mut u8,
            kept_length: usize,
            input: *const u8,
            input_length: usize,
            out: *mut u8,
            out_length: usize,
            part: *mut u64,
            part_length: usize,
        ) -> u32;
        pub fn fugu_tell_end(
            memory: *mut u32,
            memory_length: usize,
            state: *const u64,
            state_length: usize,
            kept: *const u8,
            kept_length: usize,
            out: *mut u8,
            out_length: usize,
            part: *mut u64,
            part_length: usize,
        ) -> u32;
        pub fn fugu_header(out: *mut u8, out_length: usize) -> u32;
        pub fn fugu_feed(
            memory: *mut u32,
            memory_length: usize,
            state: *mut u64,
            state_length: usize,
            kept: *mut u8,
            kept_length: usize,
            input: *const u8,
            input_length: usize,
            out: *mut u8,
            out_length: usize,
            part: *mut u64,
            part_length: usize,
        ) -> u32;
        pub fn fugu_feed_end(
            memory: *mut u32,
            memory_length: usize,
            state: *const u64,
            state_length: usize,
            kept: *const u8,
            kept_length: usize,
            out: *mut u8,
            out_length: usize,
            part: *mut u64,
            part_length: usize,
        ) -> u32;
    }
}

// Each call below is safe for the same reason: it is proved to touch nothing but the slices that it
// is handed, within their lengths, to end, and to require nothing of them. A slice's pointer is not
// null and aligned, and no `&mut` of them overlaps another.

/// The words of a node: [`crate::SIZE`].
pub fn size() -> u32 {
    unsafe { raw::fugu_size() }
}

/// Any memory that is long enough becomes a node; shorter memory is refused with 1.
pub fn power_on(memory: &mut [u32], report: &mut [u32]) -> u32 {
    unsafe {
        raw::fugu_power_on(
            memory.as_mut_ptr(),
            memory.len(),
            report.as_mut_ptr(),
            report.len(),
        )
    }
}

/// 1 where the memory is a node, else 0.
pub fn test(memory: &[u32]) -> u32 {
    unsafe { raw::fugu_test(memory.as_ptr(), memory.len()) }
}

/// One step: the operation by its letter and its numbers, for `A` the group and the words, for `B`
/// none or one, 1 where it turns force on and 0 where it leaves it.
pub fn step(memory: &mut [u32], letter: u8, arguments: &[u32], report: &mut [u32]) -> u32 {
    unsafe {
        raw::fugu_step(
            memory.as_mut_ptr(),
            memory.len(),
            letter,
            arguments.as_ptr(),
            arguments.len(),
            report.as_mut_ptr(),
            report.len(),
        )
    }
}

/// The same by a line of a script, without its newline.
pub fn line(memory: &mut [u32], text: &[u8], report: &mut [u32]) -> u32 {
    unsafe {
        raw::fugu_line(
            memory.as_mut_ptr(),
            memory.len(),
            text.as_ptr(),
            text.len(),
            report.as_mut_ptr(),
            report.len(),
        )
    }
}

/// Where the running group's first message stands in the memory, and how many words it has; 0 and 0
/// where there is none or the memory is no node.
pub fn head(memory: &[u32], part: &mut [u32]) -> u32 {
    unsafe { raw::fugu_head(memory.as_ptr(), memory.len(), part.as_mut_ptr(), part.len()) }
}

/// How many pages were sent out so far, and how many were brought in; 0 and 0 where the memory is no
/// node.
pub fn paging(memory: &[u32], part: &mut [u32]) -> u32 {
    unsafe { raw::fugu_paging(memory.as_ptr(), memory.len(), part.as_mut_ptr(), part.len()) }
}

/// Why the message that came by a line of a script was buffered: 0, the reason, and the low and high 32
/// bits of the line that it is named with; or the refusal, 2 or 17, and zeros. The memory becomes a node,
/// and the script is played on it; shorter memory is refused with 1 first, and left as it was.
pub fn why(memory: &mut [u32], script: &[u8], line: u32, part: &mut [u32]) -> u32 {
    unsafe {
        raw::fugu_why(
            memory.as_mut_ptr(),
            memory.len(),
            script.as_ptr(),
            script.len(),
            line,
            part.as_mut_ptr(),
            part.len(),
        )
    }
}

/// What is lent to a call that takes a portion of a script: memory, state, kept line, portion, output and part.
type Portion = unsafe extern "C" fn(
    *mut u32,
    usize,
    *mut u64,
    usize,
    *mut u8,
    usize,
    *const u8,
    usize,
    *mut u8,
    usize,
    *mut u64,
    usize,
) -> u32;

/// And to one that takes its end: the same without a portion, and a state and a kept line to look at.
type End = unsafe extern "C" fn(
    *mut u32,
    usize,
    *const u64,
    usize,
    *const u8,
    usize,
    *mut u8,
    usize,
    *mut u64,
    usize,
) -> u32;

fn over_portion(
    call: Portion,
    memory: &mut [u32],
    state: &mut [u64],
    kept: &mut [u8],
    input: &[u8],
    out: &mut [u8],
    part: &mut [u64],
) -> u32 {
    unsafe {
        call(
            memory.as_mut_ptr(),
            memory.len(),
            state.as_mut_ptr(),
            state.len(),
            kept.as_mut_ptr(),
            kept.len(),
            input.as_ptr(),
            input.len(),
            out.as_mut_ptr(),
            out.len(),
            part.as_mut_ptr(),
            part.len(),
        )
    }
}

fn over_end(
    call: End,
    memory: &mut [u32],
    state: &[u64],
    kept: &[u8],
    out: &mut [u8],
    part: &mut [u64],
) -> u32 {
    unsafe {
        call(
            memory.as_mut_ptr(),
            memory.len(),
            state.as_ptr(),
            state.len(),
            kept.as_ptr(),
            kept.len(),
            out.as_mut_ptr(),
            out.len(),
            part.as_mut_ptr(),
            part.len(),
        )
    }
}

/// The next portion of a script, of which a state and a kept line of zeros have read nothing: for each
/// message that leaves the hardware queue in it a line of text goes into the output, and into the part why
/// it stopped, how many bytes were written and how many of the portion used. Where the state, the kept line
/// or the part is too short, 0 is returned and nothing has changed.
pub fn tell(
    memory: &mut [u32],
    state: &mut [u64],
    kept: &mut [u8],
    input: &[u8],
    out: &mut [u8],
    part: &mut [u64],
) -> u32 {
    over_portion(raw::fugu_tell, memory, state, kept, input, out, part)
}

/// The script's end: a line that has begun is its last, and for each message that is still queued a line of
/// text says so. Into the part go why it stopped and how many bytes were written.
pub fn tell_end(
    memory: &mut [u32],
    state: &[u64],
    kept: &[u8],
    out: &mut [u8],
    part: &mut [u64],
) -> u32 {
    over_end(raw::fugu_tell_end, memory, state, kept, out, part)
}

/// The listing's first line, with its newline, goes into the output. Where that is too short, 0 is returned
/// and nothing has changed.
pub fn header(out: &mut [u8]) -> u32 {
    unsafe { raw::fugu_header(out.as_mut_ptr(), out.len()) }
}

/// The next portion of a script, of which a state and a kept line of zeros have read nothing: the lines that
/// it completes are stepped on the memory and listed in the output, and into the part go why it stopped, how
/// many bytes were written and how many of the portion used. Where the state, the kept line or the part is too
/// short, 0 is returned and nothing has changed.
pub fn feed(
    memory: &mut [u32],
    state: &mut [u64],
    kept: &mut [u8],
    input: &[u8],
    out: &mut [u8],
    part: &mut [u64],
) -> u32 {
    over_portion(raw::fugu_feed, memory, state, kept, input, out, part)
}

/// The script's end: a line that has begun is its last. Into the part go why it stopped and how many bytes
/// were written.
pub fn feed_end(
    memory: &mut [u32],
    state: &[u64],
    kept: &[u8],
    out: &mut [u8],
    part: &mut [u64],
) -> u32 {
    over_end(raw::fugu_feed_end, memory, state, kept, out, part)
}
