//! The C interface of the store (include/sffs1.h), for the programs in Rust that call it.

#[link(name = "sffs1", kind = "static")]
extern "C" {
    pub fn sffs1_format(image: *mut u8, image_len: usize, slots: u64) -> u8;
    pub fn sffs1_check(image: *const u8, image_len: usize, place: *mut u64) -> u8;
    pub fn sffs1_check_marked(
        image: *const u8,
        image_len: usize,
        marks: *mut u8,
        marks_len: usize,
        place: *mut u64,
    ) -> u8;
    pub fn sffs1_find(
        image: *const u8,
        image_len: usize,
        path: *const u8,
        path_len: usize,
        reference: *mut u64,
        directory: *mut u8,
        first: *mut u64,
        second: *mut u64,
        place: *mut u64,
    ) -> u8;
    pub fn sffs1_make_directory(
        image: *mut u8,
        image_len: usize,
        path: *const u8,
        path_len: usize,
        slots: u64,
        reference: *mut u64,
        place: *mut u64,
    ) -> u8;
    pub fn sffs1_make_file(
        image: *mut u8,
        image_len: usize,
        path: *const u8,
        path_len: usize,
        room: u64,
        reference: *mut u64,
        place: *mut u64,
    ) -> u8;
    pub fn sffs1_read(
        image: *const u8,
        image_len: usize,
        path: *const u8,
        path_len: usize,
        position: u64,
        buffer: *mut u8,
        buffer_len: usize,
        count: *mut u64,
        place: *mut u64,
    ) -> u8;
    pub fn sffs1_read_point(
        image: *const u8,
        image_len: usize,
        path: *const u8,
        path_len: usize,
        number: u64,
        point: *mut u8,
        place: *mut u64,
    ) -> u8;
    pub fn sffs1_write(
        image: *mut u8,
        image_len: usize,
        path: *const u8,
        path_len: usize,
        position: u64,
        bytes: *const u8,
        bytes_len: usize,
        place: *mut u64,
    ) -> u8;
    pub fn sffs1_set_length(
        image: *mut u8,
        image_len: usize,
        path: *const u8,
        path_len: usize,
        length: u64,
        place: *mut u64,
    ) -> u8;
    pub fn sffs1_remove(
        image: *mut u8,
        image_len: usize,
        path: *const u8,
        path_len: usize,
        place: *mut u64,
    ) -> u8;
    pub fn sffs1_list(
        image: *const u8,
        image_len: usize,
        numbers: *mut u64,
        numbers_len: usize,
        count: *mut u64,
        place: *mut u64,
    ) -> u8;
}
