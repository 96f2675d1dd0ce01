// The functions that the archive of the calls over bytes (crate `entry_c`) exports, for programs in Rust: a slice is a pointer and a length.
#[link(name = "entry", kind = "static")]
extern "C" {
    pub fn bozdurmek_rewrite(rules: *const u8, rules_len: usize, out: *mut u8, out_len: usize, answer: *mut [usize; 3]);
    pub fn bozdurmek_check(rules: *const u8, rules_len: usize, document: *const u8, document_len: usize, answer: *mut [usize; 3]);
    pub fn bozdurmek_consistency(rules: *const u8, rules_len: usize, out: *mut u8, out_len: usize, answer: *mut [usize; 3]);
    pub fn bozdurmek_ask(
        rules: *const u8,
        rules_len: usize,
        kind: usize,
        left: usize,
        right: usize,
        out: *mut u8,
        out_len: usize,
        answer: *mut [usize; 3],
    );
}
