//! The proved library, over slices.

#[path = "../../include/st25dv.rs"]
pub(crate) mod linked;

// In each call the slices are there for the call, never null, and do not overlap.

pub fn fresh(uid: &[u8], memory: &mut [u8], state: &mut [u8]) -> u32 {
    unsafe {
        linked::st25dv_fresh(
            uid.as_ptr(),
            uid.len(),
            memory.as_mut_ptr(),
            memory.len(),
            state.as_mut_ptr(),
            state.len(),
        )
    }
}

pub fn step(
    state: &mut [u8],
    memory: &mut [u8],
    reply: &mut [u8],
    code: u32,
    value: u32,
    frame: &[u8],
) -> u32 {
    unsafe {
        linked::st25dv_step(
            state.as_mut_ptr(),
            state.len(),
            memory.as_mut_ptr(),
            memory.len(),
            reply.as_mut_ptr(),
            reply.len(),
            code,
            value,
            frame.as_ptr(),
            frame.len(),
        )
    }
}

/// It must change no byte; the slices are lent as those of `step` are, so that a changed one shows.
pub fn explain(
    state: &mut [u8],
    memory: &mut [u8],
    reply: &mut [u8],
    code: u32,
    value: u32,
    frame: &[u8],
) -> u32 {
    unsafe {
        linked::st25dv_explain(
            state.as_mut_ptr(),
            state.len(),
            memory.as_mut_ptr(),
            memory.len(),
            reply.as_mut_ptr(),
            reply.len(),
            code,
            value,
            frame.as_ptr(),
            frame.len(),
        )
    }
}

pub fn crc(bytes: &[u8]) -> u16 {
    unsafe { linked::st25dv_crc(bytes.as_ptr(), bytes.len()) }
}
