//! The library's C functions.

macro_rules! like {
    (@ $name:ident $lent:tt) => {
        unsafe extern "C" {
            pub fn $name $lent -> u64;
        }
    };
    ($($name:ident)*: $lent:tt) => {
        $(like!(@ $name $lent);)*
    };
}
like!(mst_exp mst_reduced_range_exp mst_sigmoid mst_silu mst_tanh mst_erf mst_gelu mst_approx_gelu mst_sin mst_cos:
    (src: *const f32, n: usize, dst: *mut f32, m: usize));
like!(mst_swish mst_elu: (alpha: f32, src: *const f32, n: usize, dst: *mut f32, m: usize));
like!(mst_sum mst_sum_square mst_sum_abs mst_max_num mst_min_num: (src: *const f32, n: usize, result: *mut f32));
like!(mst_sum_square_sub mst_sum_exp_sub: (offset: f32, src: *const f32, n: usize, result: *mut f32));
like!(mst_min_max: (src: *const f32, n: usize, least: *mut f32, largest: *mut f32));
like!(mst_softmax: (flush: bool, src: *const f32, n: usize, dst: *mut f32, m: usize));
like!(mst_softmax_in_place: (flush: bool, data: *mut f32, n: usize));
like!(mst_normalize: (pre_scale_bias: f32, scale: f32, bias: f32, has_scale: bool, element_scale: *const f32, ns: usize,
    has_bias: bool, element_bias: *const f32, nb: usize, src: *const f32, n: usize, dst: *mut f32, m: usize));
like!(mst_quantize: (inv_scale: f32, zero_point: u8, src: *const f32, n: usize, dst: *mut u8, m: usize));
like!(mst_split: (levels: *const f32, n: usize, gains: *mut u16, m: usize));
like!(mst_meter_feed: (count: *mut u32, overs: *mut u32, sum_squares: *mut f32, least: *mut f32, largest: *mut f32,
    src: *const f32, n: usize));
like!(mst_table_write: (bands: u32, rows: u32, gains: *const u16, n: usize, bytes: *mut u8, m: usize));
like!(mst_table_read: (bytes: *const u8, n: usize, gains: *mut u16, m: usize, bands: *mut u32, rows: *mut u32));
like!(mst_table_to_form_1 mst_table_to_form_2: (bytes: *const u8, n: usize, result: *mut u8, m: usize));
