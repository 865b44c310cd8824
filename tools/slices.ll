; Made by bindings/write from include/bracetwill.h. The compiler's module takes a length as 64 bits on every processor; C hands over a
; size_t. tools/native-archive compiles these beside the module, for every processor.

define zeroext i32 @bracetwill_inverse_transform_2d(ptr %block, ptr %block_len.c, i32 %n, i32 %tx_type.c, i32 %lossless.c) {
  %block_len = ptrtoint ptr %block_len.c to i64
  %tx_type = trunc i32 %tx_type.c to i8
  %lossless.byte = trunc i32 %lossless.c to i8
  %lossless = icmp ne i8 %lossless.byte, 0
  %answer = call i32 @"exports::bracetwill_inverse_transform_2d"(ptr %block, i64 %block_len, i32 %n, i8 %tx_type, i1 zeroext %lossless)
  ret i32 %answer
}

define zeroext i32 @bracetwill_inverse_transform_2d_reference(ptr %block, ptr %block_len.c, i32 %n, i32 %tx_type.c, i32 %lossless.c) {
  %block_len = ptrtoint ptr %block_len.c to i64
  %tx_type = trunc i32 %tx_type.c to i8
  %lossless.byte = trunc i32 %lossless.c to i8
  %lossless = icmp ne i8 %lossless.byte, 0
  %answer = call i32 @"exports::bracetwill_inverse_transform_2d_reference"(ptr %block, i64 %block_len, i32 %n, i8 %tx_type, i1 zeroext %lossless)
  ret i32 %answer
}

define zeroext i32 @bracetwill_row_summary(ptr %block, ptr %block_len.c, i32 %n, ptr %summary) {
  %block_len = ptrtoint ptr %block_len.c to i64
  %answer = call i32 @"exports::bracetwill_row_summary"(ptr %block, i64 %block_len, i32 %n, ptr %summary)
  ret i32 %answer
}

define zeroext i32 @bracetwill_row_count(i32 %summary) {
  %answer = call i32 @"exports::bracetwill_row_count"(i32 %summary)
  ret i32 %answer
}

define signext i32 @bracetwill_first_row(i32 %summary) {
  %answer = call i32 @"exports::bracetwill_first_row"(i32 %summary)
  ret i32 %answer
}

define signext i32 @bracetwill_last_row(i32 %summary) {
  %answer = call i32 @"exports::bracetwill_last_row"(i32 %summary)
  ret i32 %answer
}

define zeroext i32 @bracetwill_replace_token(ptr %block, ptr %block_len.c, ptr %summary, i32 %tx_sz, ptr %place.c, i64 %token, i32 %dc_quant, i32 %ac_quant, i32 %bit_depth) {
  %block_len = ptrtoint ptr %block_len.c to i64
  %place = ptrtoint ptr %place.c to i64
  %answer = call i32 @"exports::bracetwill_replace_token"(ptr %block, i64 %block_len, ptr %summary, i32 %tx_sz, i64 %place, i64 %token, i32 %dc_quant, i32 %ac_quant, i32 %bit_depth)
  ret i32 %answer
}

define zeroext i32 @bracetwill_inverse_transform_2d_rows(ptr %block, ptr %block_len.c, i32 %n, i32 %tx_type.c, i32 %lossless.c, ptr %rows) {
  %block_len = ptrtoint ptr %block_len.c to i64
  %tx_type = trunc i32 %tx_type.c to i8
  %lossless.byte = trunc i32 %lossless.c to i8
  %lossless = icmp ne i8 %lossless.byte, 0
  %answer = call i32 @"exports::bracetwill_inverse_transform_2d_rows"(ptr %block, i64 %block_len, i32 %n, i8 %tx_type, i1 zeroext %lossless, ptr %rows)
  ret i32 %answer
}

define zeroext i32 @bracetwill_inverse_transform_2d_32(ptr %block, ptr %block_len.c, i32 %n, i32 %tx_type.c, i32 %lossless.c) {
  %block_len = ptrtoint ptr %block_len.c to i64
  %tx_type = trunc i32 %tx_type.c to i8
  %lossless.byte = trunc i32 %lossless.c to i8
  %lossless = icmp ne i8 %lossless.byte, 0
  %answer = call i32 @"exports::bracetwill_inverse_transform_2d_32"(ptr %block, i64 %block_len, i32 %n, i8 %tx_type, i1 zeroext %lossless)
  ret i32 %answer
}

define zeroext i32 @bracetwill_reconstruct_block(ptr %samples, ptr %samples_len.c, ptr %width.c, ptr %height.c, ptr %stride.c, ptr %x.c, ptr %y.c, i32 %tx_sz, ptr %tokens, ptr %tokens_len.c, i32 %dc_quant, i32 %ac_quant, i32 %tx_type.c, i32 %lossless.c, i32 %bit_depth) {
  %samples_len = ptrtoint ptr %samples_len.c to i64
  %width = ptrtoint ptr %width.c to i64
  %height = ptrtoint ptr %height.c to i64
  %stride = ptrtoint ptr %stride.c to i64
  %x = ptrtoint ptr %x.c to i64
  %y = ptrtoint ptr %y.c to i64
  %tokens_len = ptrtoint ptr %tokens_len.c to i64
  %tx_type = trunc i32 %tx_type.c to i8
  %lossless.byte = trunc i32 %lossless.c to i8
  %lossless = icmp ne i8 %lossless.byte, 0
  %answer = call i32 @"exports::bracetwill_reconstruct_block"(ptr %samples, i64 %samples_len, i64 %width, i64 %height, i64 %stride, i64 %x, i64 %y, i32 %tx_sz, ptr %tokens, i64 %tokens_len, i32 %dc_quant, i32 %ac_quant, i8 %tx_type, i1 zeroext %lossless, i32 %bit_depth)
  ret i32 %answer
}

define zeroext i32 @bracetwill_reconstruct_block_report(ptr %samples, ptr %samples_len.c, ptr %width.c, ptr %height.c, ptr %stride.c, ptr %x.c, ptr %y.c, i32 %tx_sz, ptr %tokens, ptr %tokens_len.c, i32 %dc_quant, i32 %ac_quant, i32 %tx_type.c, i32 %lossless.c, i32 %bit_depth, ptr %counts, ptr %sums) {
  %samples_len = ptrtoint ptr %samples_len.c to i64
  %width = ptrtoint ptr %width.c to i64
  %height = ptrtoint ptr %height.c to i64
  %stride = ptrtoint ptr %stride.c to i64
  %x = ptrtoint ptr %x.c to i64
  %y = ptrtoint ptr %y.c to i64
  %tokens_len = ptrtoint ptr %tokens_len.c to i64
  %tx_type = trunc i32 %tx_type.c to i8
  %lossless.byte = trunc i32 %lossless.c to i8
  %lossless = icmp ne i8 %lossless.byte, 0
  %answer = call i32 @"exports::bracetwill_reconstruct_block_report"(ptr %samples, i64 %samples_len, i64 %width, i64 %height, i64 %stride, i64 %x, i64 %y, i32 %tx_sz, ptr %tokens, i64 %tokens_len, i32 %dc_quant, i32 %ac_quant, i8 %tx_type, i1 zeroext %lossless, i32 %bit_depth, ptr %counts, ptr %sums)
  ret i32 %answer
}

define zeroext i32 @bracetwill_forward_wht_2d(ptr %block, ptr %block_len.c) {
  %block_len = ptrtoint ptr %block_len.c to i64
  %answer = call i32 @"exports::bracetwill_forward_wht_2d"(ptr %block, i64 %block_len)
  ret i32 %answer
}

define zeroext i32 @bracetwill_forward_dct_2d(ptr %block, ptr %block_len.c, i32 %n) {
  %block_len = ptrtoint ptr %block_len.c to i64
  %answer = call i32 @"exports::bracetwill_forward_dct_2d"(ptr %block, i64 %block_len, i32 %n)
  ret i32 %answer
}

define zeroext i32 @bracetwill_quantize_block_tx(ptr %coefs, ptr %coefs_len.c, i32 %dc_quant, i32 %ac_quant, i32 %tx_sz, i32 %bit_depth) {
  %coefs_len = ptrtoint ptr %coefs_len.c to i64
  %answer = call i32 @"exports::bracetwill_quantize_block_tx"(ptr %coefs, i64 %coefs_len, i32 %dc_quant, i32 %ac_quant, i32 %tx_sz, i32 %bit_depth)
  ret i32 %answer
}

define zeroext i32 @bracetwill_quantize_block(ptr %coefs, ptr %coefs_len.c, i32 %dc_quant, i32 %ac_quant) {
  %coefs_len = ptrtoint ptr %coefs_len.c to i64
  %answer = call i32 @"exports::bracetwill_quantize_block"(ptr %coefs, i64 %coefs_len, i32 %dc_quant, i32 %ac_quant)
  ret i32 %answer
}

define zeroext i32 @bracetwill_quantize_block_rule(ptr %coefs, ptr %coefs_len.c, i32 %dc_quant, i32 %ac_quant, i32 %tx_sz, i32 %bit_depth, i32 %rule) {
  %coefs_len = ptrtoint ptr %coefs_len.c to i64
  %answer = call i32 @"exports::bracetwill_quantize_block_rule"(ptr %coefs, i64 %coefs_len, i32 %dc_quant, i32 %ac_quant, i32 %tx_sz, i32 %bit_depth, i32 %rule)
  ret i32 %answer
}

define i64 @bracetwill_max_codeable_coef(i32 %bit_depth) {
  %answer = call i64 @"exports::bracetwill_max_codeable_coef"(i32 %bit_depth)
  ret i64 %answer
}

define zeroext i32 @bracetwill_replay(ptr %file, ptr %file_len.c, ptr %samples, ptr %samples_len.c, ptr %answers, ptr %answers_len.c, ptr %figures, ptr %figures_len.c) {
  %file_len = ptrtoint ptr %file_len.c to i64
  %samples_len = ptrtoint ptr %samples_len.c to i64
  %answers_len = ptrtoint ptr %answers_len.c to i64
  %figures_len = ptrtoint ptr %figures_len.c to i64
  %answer = call i32 @"exports::bracetwill_replay"(ptr %file, i64 %file_len, ptr %samples, i64 %samples_len, ptr %answers, i64 %answers_len, ptr %figures, i64 %figures_len)
  ret i32 %answer
}

define ptr @bracetwill_blockrun(ptr %file, ptr %file_len.c, ptr %samples, ptr %samples_len.c, ptr %answers, ptr %answers_len.c, ptr %out, ptr %out_len.c) {
  %file_len = ptrtoint ptr %file_len.c to i64
  %samples_len = ptrtoint ptr %samples_len.c to i64
  %answers_len = ptrtoint ptr %answers_len.c to i64
  %out_len = ptrtoint ptr %out_len.c to i64
  %answer = call i64 @"exports::bracetwill_blockrun"(ptr %file, i64 %file_len, ptr %samples, i64 %samples_len, ptr %answers, i64 %answers_len, ptr %out, i64 %out_len)
  %answer.c = inttoptr i64 %answer to ptr
  ret ptr %answer.c
}

define zeroext i32 @bracetwill_vbk_write(i32 %depth.c, i32 %width.c, i32 %height.c, ptr %samples, ptr %samples_len.c, ptr %xs, ptr %xs_len.c, ptr %ys, ptr %ys_len.c, ptr %sizes, ptr %sizes_len.c, ptr %tx_types, ptr %tx_types_len.c, ptr %lossless, ptr %lossless_len.c, ptr %dcs, ptr %dcs_len.c, ptr %acs, ptr %acs_len.c, ptr %counts, ptr %counts_len.c, ptr %tokens, ptr %tokens_len.c, ptr %out, ptr %out_len.c, ptr %length.c) {
  %depth = trunc i32 %depth.c to i8
  %width = trunc i32 %width.c to i16
  %height = trunc i32 %height.c to i16
  %samples_len = ptrtoint ptr %samples_len.c to i64
  %xs_len = ptrtoint ptr %xs_len.c to i64
  %ys_len = ptrtoint ptr %ys_len.c to i64
  %sizes_len = ptrtoint ptr %sizes_len.c to i64
  %tx_types_len = ptrtoint ptr %tx_types_len.c to i64
  %lossless_len = ptrtoint ptr %lossless_len.c to i64
  %dcs_len = ptrtoint ptr %dcs_len.c to i64
  %acs_len = ptrtoint ptr %acs_len.c to i64
  %counts_len = ptrtoint ptr %counts_len.c to i64
  %tokens_len = ptrtoint ptr %tokens_len.c to i64
  %out_len = ptrtoint ptr %out_len.c to i64
  %length = alloca i64
  %length.before = load ptr, ptr %length.c
  %length.wide = ptrtoint ptr %length.before to i64
  store i64 %length.wide, ptr %length
  %answer = call i32 @"exports::bracetwill_vbk_write"(i8 %depth, i16 %width, i16 %height, ptr %samples, i64 %samples_len, ptr %xs, i64 %xs_len, ptr %ys, i64 %ys_len, ptr %sizes, i64 %sizes_len, ptr %tx_types, i64 %tx_types_len, ptr %lossless, i64 %lossless_len, ptr %dcs, i64 %dcs_len, ptr %acs, i64 %acs_len, ptr %counts, i64 %counts_len, ptr %tokens, i64 %tokens_len, ptr %out, i64 %out_len, ptr %length)
  %length.told = load i64, ptr %length
  %length.after = inttoptr i64 %length.told to ptr
  store ptr %length.after, ptr %length.c
  ret i32 %answer
}
