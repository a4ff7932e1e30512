//! The engine's functions on a line. C sees each slice as a pointer and a
//! length.

mod linked {
    #[link(name = "line", kind = "static")]
    extern "C" {
        pub fn line_load(
            plan: *const u8,
            plan_length: usize,
            state: *mut u8,
            state_length: usize,
        ) -> u32;
        pub fn line_check(state: *const u8, state_length: usize) -> u32;
        pub fn line_write(
            state: *const u8,
            state_length: usize,
            plan: *mut u8,
            plan_length: usize,
        ) -> u32;
        pub fn line_step(
            state: *mut u8,
            state_length: usize,
            frame: *const u8,
            frame_length: usize,
        ) -> u32;
    }
}

pub fn load(plan: &[u8], state: &mut [u8]) -> u32 {
    let (length, space) = (plan.len(), state.len());
    unsafe { linked::line_load(plan.as_ptr(), length, state.as_mut_ptr(), space) }
}

pub fn check(state: &[u8]) -> u32 {
    unsafe { linked::line_check(state.as_ptr(), state.len()) }
}

pub fn write(state: &[u8], plan: &mut [u8]) -> u32 {
    let (length, space) = (state.len(), plan.len());
    unsafe { linked::line_write(state.as_ptr(), length, plan.as_mut_ptr(), space) }
}

pub fn step(state: &mut [u8], frame: &[u8]) -> u32 {
    let (space, length) = (state.len(), frame.len());
    unsafe { linked::line_step(state.as_mut_ptr(), space, frame.as_ptr(), length) }
}
