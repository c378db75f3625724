//! The library's functions, with a slice for each pointer and its length. An answer's low byte is the number of a refusal, 0
//! for none and NO_CONTROLLER where the bytes are no saved controller.

pub const NO_CONTROLLER: u32 = 255;

/// What `send` answers where it does nothing.
pub const NOTHING_SENT: u32 = 0xFFFF_FFFF;

mod c {
    #[link(name = "granivolche", kind = "static")]
    extern "C" {
        pub fn granivolche_reset(controller: *mut u8, length: usize) -> u32;
        pub fn granivolche_command_write(controller: *mut u8, length: usize, byte: u8) -> u32;
        pub fn granivolche_data_write(controller: *mut u8, length: usize, memory: *mut u8, memory_length: usize, byte: u8) -> u32;
        pub fn granivolche_data_read(controller: *mut u8, length: usize, memory: *const u8, memory_length: usize) -> u32;
        pub fn granivolche_send(
            controller: *mut u8,
            length: usize,
            memory: *mut u8,
            memory_length: usize,
            bytes: *const u8,
            bytes_length: usize,
            answers: *mut u8,
            answers_length: usize,
        ) -> u32;
        pub fn granivolche_row(
            controller: *const u8,
            length: usize,
            memory: *const u8,
            memory_length: usize,
            font: *const u8,
            font_length: usize,
            frame: u32,
            row: u32,
            dots: *mut u8,
            dots_length: usize,
        ) -> u32;
        pub fn granivolche_frame_size(controller: *const u8, length: usize) -> u32;
    }
}

// In each call below the pointers and lengths are those of slices, which live longer than the call and do not overlap.

pub fn reset(controller: &mut [u8]) -> u32 {
    unsafe { c::granivolche_reset(controller.as_mut_ptr(), controller.len()) }
}

pub fn command_write(controller: &mut [u8], byte: u8) -> u32 {
    unsafe { c::granivolche_command_write(controller.as_mut_ptr(), controller.len(), byte) }
}

pub fn data_write(controller: &mut [u8], memory: &mut [u8], byte: u8) -> u32 {
    unsafe { c::granivolche_data_write(controller.as_mut_ptr(), controller.len(), memory.as_mut_ptr(), memory.len(), byte) }
}

/// The number and 256 times the value read.
pub fn data_read(controller: &mut [u8], memory: &[u8]) -> u32 {
    unsafe { c::granivolche_data_read(controller.as_mut_ptr(), controller.len(), memory.as_ptr(), memory.len()) }
}

/// A command byte and its data writes, with an answer for each: how many were refused.
pub fn send(controller: &mut [u8], memory: &mut [u8], bytes: &[u8], answers: &mut [u8]) -> u32 {
    unsafe {
        c::granivolche_send(
            controller.as_mut_ptr(),
            controller.len(),
            memory.as_mut_ptr(),
            memory.len(),
            bytes.as_ptr(),
            bytes.len(),
            answers.as_mut_ptr(),
            answers.len(),
        )
    }
}

pub fn row(controller: &[u8], memory: &[u8], font: &[u8], frame: u32, row: u32, dots: &mut [u8]) -> u32 {
    unsafe {
        c::granivolche_row(
            controller.as_ptr(),
            controller.len(),
            memory.as_ptr(),
            memory.len(),
            font.as_ptr(),
            font.len(),
            frame,
            row,
            dots.as_mut_ptr(),
            dots.len(),
        )
    }
}

/// The width and 65,536 times the rows; 0 where the bytes are no saved controller.
pub fn frame_size(controller: &[u8]) -> u32 {
    unsafe { c::granivolche_frame_size(controller.as_ptr(), controller.len()) }
}
