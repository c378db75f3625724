//! The functions as one value, so that a test runs the same code over the library and over the reference.

use crate::{calls, expected};

pub struct Functions {
    pub reset: fn(&mut [u8]) -> u32,
    pub command_write: fn(&mut [u8], u8) -> u32,
    pub data_write: fn(&mut [u8], &mut [u8], u8) -> u32,
    pub data_read: fn(&mut [u8], &[u8]) -> u32,
    pub send: fn(&mut [u8], &mut [u8], &[u8], &mut [u8]) -> u32,
    pub row: fn(&[u8], &[u8], &[u8], u32, u32, &mut [u8]) -> u32,
    pub frame_size: fn(&[u8]) -> u32,
}

pub static LIBRARY: Functions = Functions {
    reset: calls::reset,
    command_write: calls::command_write,
    data_write: calls::data_write,
    data_read: calls::data_read,
    send: calls::send,
    row: calls::row,
    frame_size: calls::frame_size,
};

pub static REFERENCE: Functions = Functions {
    reset: expected::reset,
    command_write: expected::command_write,
    data_write: expected::data_write,
    data_read: expected::data_read,
    send: expected::send,
    row: expected::row,
    frame_size: expected::frame_size,
};
