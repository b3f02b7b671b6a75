//! The functions of libkt11b.a, as host/include/kt11b.h declares them.

// What they ask of their pointers: a unit is UNIT_WORDS words, memory is `length` bytes, neither null, and the two do not
// overlap. Nothing is kept of either after the call.
extern "C" {
    pub fn kt11b_fresh(unit: *mut u16, cells: u64) -> u64;
    pub fn kt11b_access(
        unit: *mut u16,
        memory: *mut u8,
        length: u64,
        operation: u64,
        state: u64,
        width: u64,
        address: u16,
        data: u16,
    ) -> u64;
    pub fn kt11b_interrupt(unit: *mut u16) -> u64;
    pub fn kt11b_trap(unit: *mut u16, vector: u64) -> u64;
    pub fn kt11b_init(unit: *mut u16) -> u64;
    pub fn kt11b_register(unit: *const u16, number: u64) -> u64;
    pub fn kt11b_cells(unit: *const u16) -> u64;
    pub fn kt11b_cell_tag(unit: *const u16, index: u64) -> u64;
    pub fn kt11b_cell_word(unit: *const u16, index: u64) -> u64;
    pub fn kt11b_counter(unit: *const u16) -> u64;
    pub fn kt11b_wait(unit: *const u16) -> u64;
    pub fn kt11b_map_page(length: u64, word: u16) -> u64;
}
