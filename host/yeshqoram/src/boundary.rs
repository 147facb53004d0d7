//! The functions of the proved library, as include/yeshqoram.h declares them.

use crate::{Answer, Normalized};

extern "C" {
    pub fn yeshqoram_report(
        text: *const u8,
        text_length: usize,
        top_n: usize,
        out: *mut u8,
        out_length: usize,
        work: *mut u32,
        work_length: usize,
    ) -> Answer;

    pub fn yeshqoram_normalize(
        text: *const u8,
        text_length: usize,
        cap: usize,
        out: *mut u8,
        out_length: usize,
        work: *mut u32,
        work_length: usize,
    ) -> Normalized;

    pub fn yeshqoram_spell_path(
        text: *const u8,
        text_length: usize,
        k: usize,
        out: *mut u8,
        out_length: usize,
        work: *mut u32,
        work_length: usize,
    ) -> Answer;
}
