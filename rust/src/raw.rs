//! The library's functions, as `include/trunk.h` declares them. A slice is a pointer and a length.

unsafe extern "C" {
    pub safe fn trunk_version() -> u32;
    pub fn trunk_check_map(map: *const u8, map_length: usize, reply: *mut u64, reply_count: usize);
    pub fn trunk_check_order(
        order: *const u8,
        order_length: usize,
        bans: *const u32,
        ban_count: usize,
        junctions: u32,
        roads: u32,
        reply: *mut u64,
        reply_count: usize,
    );
    pub fn trunk_plan(
        map: *const u8,
        map_length: usize,
        order: *const u8,
        order_length: usize,
        bans: *const u32,
        ban_count: usize,
        words: *mut u32,
        word_count: usize,
        sheet: *mut u8,
        sheet_length: usize,
        reply: *mut u64,
        reply_count: usize,
    );
    pub fn trunk_retime(
        map: *const u8,
        map_length: usize,
        order: *const u8,
        order_length: usize,
        bans: *const u32,
        ban_count: usize,
        sheet: *const u8,
        sheet_length: usize,
        out: *mut u8,
        out_length: usize,
        reply: *mut u64,
        reply_count: usize,
    );
    pub fn trunk_audit(
        map: *const u8,
        map_length: usize,
        order: *const u8,
        order_length: usize,
        bans: *const u32,
        ban_count: usize,
        sheet: *const u8,
        sheet_length: usize,
        reply: *mut u64,
        reply_count: usize,
    );
    pub fn trunk_name(
        map: *const u8,
        map_length: usize,
        junction: u32,
        reply: *mut u64,
        reply_count: usize,
        part: *mut u64,
        part_count: usize,
    );
    pub fn trunk_make_chains(map: *mut u8, map_length: usize, reply: *mut u64, reply_count: usize);
    pub fn trunk_replay(
        trace: *const u8,
        trace_length: usize,
        rules: *const u32,
        rule_count: usize,
        figures: *mut u32,
        figure_count: usize,
        reply: *mut u64,
        reply_count: usize,
    );
    pub fn trunk_strike(
        map: *mut u8,
        map_length: usize,
        road: u32,
        reply: *mut u64,
        reply_count: usize,
    );
    pub fn trunk_preview(
        map: *const u8,
        map_length: usize,
        order: *const u8,
        order_length: usize,
        bans: *const u32,
        ban_count: usize,
        road: u32,
        words: *mut u32,
        word_count: usize,
        sheet: *mut u8,
        sheet_length: usize,
        reply: *mut u64,
        reply_count: usize,
    );
}
