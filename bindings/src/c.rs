//! The calls of fissures.h, and what all of them ask: no pointer is null, each is to as many bytes or numbers as the length behind it
//! says, and what a call may write overlaps nothing else that it is given. No call keeps a pointer. The pointer and the length of a Rust
//! slice are so, of an empty one too, and what is borrowed mutably overlaps nothing.

extern "C" {
    pub fn fissure_check(sheet: *const u8, length: usize, second: &mut u64) -> u64;
    pub fn fissure_order(sheet: *const u8, length: usize, out: *mut u8, room: usize, second: &mut u64) -> u64;
    pub fn fissure_plain(sheet: *const u8, length: usize, out: *mut u8, room: usize, second: &mut u64) -> u64;
    pub fn fissure_grid(
        sheet: *const u8,
        length: usize,
        figure: u64,
        out: *mut u8,
        room: usize,
        second: &mut u64,
        cells: &mut u64,
    ) -> u64;
    pub fn fissure_cells(
        sheet: *const u8,
        length: usize,
        figure: u64,
        column: u64,
        row: u64,
        out: *mut u8,
        room: usize,
        second: &mut u64,
    ) -> u64;
    pub fn fissure_traces_shp(sheet: *const u8, length: usize, out: *mut u8, room: usize, second: &mut u64) -> u64;
    pub fn fissure_traces_shx(sheet: *const u8, length: usize, out: *mut u8, room: usize, second: &mut u64) -> u64;
    pub fn fissure_ends_shp(sheet: *const u8, length: usize, out: *mut u8, room: usize, second: &mut u64) -> u64;
    pub fn fissure_ends_shx(sheet: *const u8, length: usize, out: *mut u8, room: usize, second: &mut u64) -> u64;
    pub fn fissure_open(sheet: *const u8, length: usize, session: *mut u64, numbers: usize, second: &mut u64) -> u64;
    pub fn fissure_advance(
        sheet: *const u8,
        length: usize,
        session: *mut u64,
        numbers: usize,
        n: u64,
        out: *mut u8,
        room: usize,
        second: &mut u64,
    ) -> u64;
    pub fn fissure_reset(sheet: *const u8, length: usize, session: *mut u64, numbers: usize, second: &mut u64) -> u64;
    pub fn fissure_running(
        sheet: *const u8,
        length: usize,
        session: *const u64,
        numbers: usize,
        second: &mut u64,
    ) -> u64;
    pub fn fissure_name(
        tracks: *const u8,
        tracks_length: usize,
        walls: *const u8,
        walls_length: usize,
        kind: u64,
        partner: u64,
        list: &mut u64,
        start: &mut u64,
        size: &mut u64,
    );
}
