// The library's functions, as include/cix.h declares them.
extern "C" {
    pub fn cix_format(
        image: *mut u8,
        image_len: usize,
        entries: u32,
        pages: u32,
        step: u32,
        stores: u32,
    ) -> u64;
    pub fn cix_begin(image: *const u8, image_len: usize, space: *mut u8, space_len: usize) -> u64;
    pub fn cix_put(
        space: *mut u8,
        space_len: usize,
        tag: u32,
        level: u8,
        second: u32,
        phone: u16,
        minutes: u8,
    ) -> u64;
    pub fn cix_put_pit(
        space: *mut u8,
        space_len: usize,
        tag: u32,
        level: u8,
        second: u32,
        phone: u16,
        minutes: u8,
    ) -> u64;
    pub fn cix_delete(
        space: *mut u8,
        space_len: usize,
        tag: u32,
        level: u8,
        second: u32,
        phone: u16,
    ) -> u64;
    pub fn cix_set_minutes(
        space: *mut u8,
        space_len: usize,
        tag: u32,
        level: u8,
        second: u32,
        phone: u16,
        minutes: u8,
    ) -> u64;
    pub fn cix_drop_tag(space: *mut u8, space_len: usize, tag: u32) -> u64;
    pub fn cix_commit(
        image: *mut u8,
        image_len: usize,
        space: *const u8,
        space_len: usize,
        stores: u32,
    ) -> u64;
    pub fn cix_recover(image: *mut u8, image_len: usize, stores: u32) -> u64;
    pub fn cix_count_image(image: *const u8, image_len: usize, tag: u32) -> u64;
    pub fn cix_count_space(space: *const u8, space_len: usize, tag: u32) -> u64;
    pub fn cix_rank_image(
        image: *const u8,
        image_len: usize,
        tag: u32,
        level: u8,
        second: u32,
        phone: u16,
    ) -> u64;
    pub fn cix_rank_space(
        space: *const u8,
        space_len: usize,
        tag: u32,
        level: u8,
        second: u32,
        phone: u16,
    ) -> u64;
    pub fn cix_show_image(image: *const u8, image_len: usize, tag: u32) -> u64;
    pub fn cix_show_space(space: *const u8, space_len: usize, tag: u32) -> u64;
}

macro_rules! merges {
    ($($name:ident)*) => {
        extern "C" {
            $(pub fn $name(
                bytes: *const u8,
                bytes_len: usize,
                first: u32,
                second: u32,
                out: *mut u8,
                out_len: usize,
            ) -> u64;)*
        }
    };
}

merges! { cix_both_image cix_either_image cix_without_image cix_both_space cix_either_space cix_without_space }
