//! The proved library's rack, over slices.

use super::calls::Lent;
use crate::library::linked::{st25dv_rack_search, st25dv_rack_step};

// In each call the slices are there for the call, never null, and do not overlap.

pub fn rack_step(
    lent: Lent,
    tags: u32,
    to: u32,
    (code, value, frame): (u32, u32, &[u8]),
) -> (u32, u32) {
    let given = unsafe {
        st25dv_rack_step(
            lent.states.as_mut_ptr(),
            lent.states.len(),
            lent.memory.as_mut_ptr(),
            lent.memory.len(),
            lent.reply.as_mut_ptr(),
            lent.reply.len(),
            tags,
            to,
            code,
            value,
            frame.as_ptr(),
            frame.len(),
        )
    };
    (given.answer, given.answered)
}

pub fn rack_search(lent: Lent, tags: u32, frame: &[u8]) -> u32 {
    unsafe {
        st25dv_rack_search(
            lent.states.as_mut_ptr(),
            lent.states.len(),
            lent.memory.as_mut_ptr(),
            lent.memory.len(),
            lent.reply.as_mut_ptr(),
            lent.reply.len(),
            tags,
            frame.as_ptr(),
            frame.len(),
        )
    }
}
