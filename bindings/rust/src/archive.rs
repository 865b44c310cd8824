//! Made by bindings/write from include/bracetwill.h: the archive's functions. A slice crosses as its pointer and its length.
#[rustfmt::skip]
unsafe extern "C" {
    pub fn bracetwill_inverse_transform_2d(block: *mut i64, block_len: usize, n: u32, tx_type: u8, lossless: bool) -> u32;
    pub fn bracetwill_inverse_transform_2d_reference(block: *mut i64, block_len: usize, n: u32, tx_type: u8, lossless: bool) -> u32;
    pub fn bracetwill_row_summary(block: *const i64, block_len: usize, n: u32, summary: *mut u32) -> u32;
    pub fn bracetwill_row_count(summary: u32) -> u32;
    pub fn bracetwill_first_row(summary: u32) -> i32;
    pub fn bracetwill_last_row(summary: u32) -> i32;
    pub fn bracetwill_replace_token(
        block: *mut i64,
        block_len: usize,
        summary: *mut u32,
        tx_sz: u32,
        place: usize,
        token: i64,
        dc_quant: i32,
        ac_quant: i32,
        bit_depth: u32,
    ) -> u32;
    pub fn bracetwill_inverse_transform_2d_rows(
        block: *mut i64,
        block_len: usize,
        n: u32,
        tx_type: u8,
        lossless: bool,
        rows: *mut u32,
    ) -> u32;
    pub fn bracetwill_inverse_transform_2d_32(block: *mut i64, block_len: usize, n: u32, tx_type: u8, lossless: bool) -> u32;
    pub fn bracetwill_reconstruct_block(
        samples: *mut u16,
        samples_len: usize,
        width: usize,
        height: usize,
        stride: usize,
        x: usize,
        y: usize,
        tx_sz: u32,
        tokens: *const i64,
        tokens_len: usize,
        dc_quant: i32,
        ac_quant: i32,
        tx_type: u8,
        lossless: bool,
        bit_depth: u32,
    ) -> u32;
    pub fn bracetwill_reconstruct_block_report(
        samples: *mut u16,
        samples_len: usize,
        width: usize,
        height: usize,
        stride: usize,
        x: usize,
        y: usize,
        tx_sz: u32,
        tokens: *const i64,
        tokens_len: usize,
        dc_quant: i32,
        ac_quant: i32,
        tx_type: u8,
        lossless: bool,
        bit_depth: u32,
        counts: *mut [u32; 44],
        sums: *mut [u64; 44],
    ) -> u32;
    pub fn bracetwill_forward_wht_2d(block: *mut i64, block_len: usize) -> u32;
    pub fn bracetwill_forward_dct_2d(block: *mut i64, block_len: usize, n: u32) -> u32;
    pub fn bracetwill_quantize_block_tx(
        coefs: *mut i64,
        coefs_len: usize,
        dc_quant: i32,
        ac_quant: i32,
        tx_sz: u32,
        bit_depth: u32,
    ) -> u32;
    pub fn bracetwill_quantize_block(coefs: *mut i64, coefs_len: usize, dc_quant: i32, ac_quant: i32) -> u32;
    pub fn bracetwill_quantize_block_rule(
        coefs: *mut i64,
        coefs_len: usize,
        dc_quant: i32,
        ac_quant: i32,
        tx_sz: u32,
        bit_depth: u32,
        rule: u32,
    ) -> u32;
    pub fn bracetwill_max_codeable_coef(bit_depth: u32) -> i64;
    pub fn bracetwill_replay(
        file: *const u8,
        file_len: usize,
        samples: *mut u16,
        samples_len: usize,
        answers: *mut u8,
        answers_len: usize,
        figures: *mut u64,
        figures_len: usize,
    ) -> u32;
    pub fn bracetwill_blockrun(
        file: *const u8,
        file_len: usize,
        samples: *mut u16,
        samples_len: usize,
        answers: *mut u8,
        answers_len: usize,
        out: *mut u8,
        out_len: usize,
    ) -> usize;
    pub fn bracetwill_vbk_write(
        depth: u8,
        width: u16,
        height: u16,
        samples: *const u16,
        samples_len: usize,
        xs: *const u16,
        xs_len: usize,
        ys: *const u16,
        ys_len: usize,
        sizes: *const u8,
        sizes_len: usize,
        tx_types: *const u8,
        tx_types_len: usize,
        lossless: *const u8,
        lossless_len: usize,
        dcs: *const u16,
        dcs_len: usize,
        acs: *const u16,
        acs_len: usize,
        counts: *const u32,
        counts_len: usize,
        tokens: *const i32,
        tokens_len: usize,
        out: *mut u8,
        out_len: usize,
        length: *mut [usize; 1],
    ) -> u32;
}
