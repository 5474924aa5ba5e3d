//! The C functions of the library. A slice is a pointer and a length; the answer is a word.

/// Declares functions that take the same arguments.
macro_rules! alike {
    ($($arguments:tt: $($name:ident)*;)*) => {
        unsafe extern "C" {
            $($(pub(crate) fn $name $arguments -> u64;)*)*
        }
    };
}

unsafe extern "C" {
    pub(crate) safe fn mst_version() -> u32;
}

alike! {
    (src: *const f32, n: usize, dst: *mut f32, m: usize):
        mst_exp mst_reduced_range_exp mst_sigmoid mst_silu mst_tanh mst_erf mst_gelu mst_approx_gelu mst_sin mst_cos;
    (alpha: f32, src: *const f32, n: usize, dst: *mut f32, m: usize): mst_swish mst_elu;
    (src: *const f32, n: usize, result: *mut f32): mst_sum mst_sum_square mst_sum_abs mst_max_num mst_min_num;
    (offset: f32, src: *const f32, n: usize, result: *mut f32): mst_sum_square_sub mst_sum_exp_sub;
    (src: *const f32, n: usize, least: *mut f32, largest: *mut f32): mst_min_max;
    (flush: bool, src: *const f32, n: usize, dst: *mut f32, m: usize): mst_softmax;
    (flush: bool, data: *mut f32, n: usize): mst_softmax_in_place;
    (pre_scale_bias: f32, scale: f32, bias: f32, has_scale: bool, element_scale: *const f32, ns: usize, has_bias: bool,
        element_bias: *const f32, nb: usize, src: *const f32, n: usize, dst: *mut f32, m: usize): mst_normalize;
    (pre_scale_bias: f32, scale: f32, bias: f32, has_scale: bool, element_scale: *const f32, ns: usize, has_bias: bool,
        element_bias: *const f32, nb: usize, data: *mut f32, n: usize): mst_normalize_in_place;
    (inv_scale: f32, zero_point: u8, src: *const f32, n: usize, dst: *mut u8, m: usize): mst_quantize;
    (levels: *const f32, n: usize, gains: *mut u16, m: usize): mst_split;
    (count: *mut u32, overs: *mut u32, sum_squares: *mut f32, least: *mut f32, largest: *mut f32, src: *const f32, n: usize): mst_meter_feed;
    (bands: u32, rows: u32, gains: *const u16, n: usize, bytes: *mut u8, m: usize): mst_table_write;
    (bytes: *const u8, n: usize, gains: *mut u16, m: usize, bands: *mut u32, rows: *mut u32): mst_table_read;
    (bytes: *const u8, n: usize, result: *mut u8, m: usize): mst_table_to_form_1 mst_table_to_form_2;
    (number: u32, bytes: *const u8, n: usize, form: *mut u32, bands: *mut u32, rows: *mut u32, held: *mut u32):
        mst_table_read_block;
}
