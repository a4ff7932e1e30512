// The engine's placing and its marker as C sees them: each slice is a pointer and a
// length.

/// A function on a table and columns. The marker writes none, but is called as the placing is.
pub type OnTable = unsafe extern "C" fn(
    low: u32,
    high: u32,
    rows: *const u32,
    rows_length: usize,
    times: *const u32,
    times_length: usize,
    fixed: *const u32,
    fixed_length: usize,
    floors: *const u32,
    floors_length: usize,
    columns: *mut u32,
    columns_length: usize,
) -> u32;

#[link(name = "placing", kind = "static")]
extern "C" {
    pub fn placing_place(
        low: u32,
        high: u32,
        rows: *const u32,
        rows_length: usize,
        times: *const u32,
        times_length: usize,
        fixed: *const u32,
        fixed_length: usize,
        floors: *const u32,
        floors_length: usize,
        columns: *mut u32,
        columns_length: usize,
    ) -> u32;
}

#[link(name = "marking", kind = "static")]
extern "C" {
    pub fn marking_mark(
        low: u32,
        high: u32,
        rows: *const u32,
        rows_length: usize,
        times: *const u32,
        times_length: usize,
        fixed: *const u32,
        fixed_length: usize,
        floors: *const u32,
        floors_length: usize,
        columns: *mut u32,
        columns_length: usize,
    ) -> u32;
}
