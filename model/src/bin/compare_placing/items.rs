// The engine's placing over a slice of items, as C sees it.

/// The engine's item, as `#[repr(C)]` lays it out: four words.
pub const WORDS_OF_AN_ITEM: usize = 4;

#[link(name = "placing_items", kind = "static")]
extern "C" {
    pub fn placing_place_items(
        low: u32,
        high: u32,
        items: *const [u32; WORDS_OF_AN_ITEM],
        items_length: usize,
        columns: *mut u32,
        columns_length: usize,
    ) -> u32;
}
