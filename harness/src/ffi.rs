//! The functions of crates/exports, `lfo_run`, `lfo_ensemble_run`, `lfo_item_read` and `lfo_item_write`, each in a safe wrapper of its own name. None asks
//! anything of its arguments: each is proved to end and to read and write within its slices only, whatever they hold, so every call is sound.

/// `name(number: type, ..) -> result`
macro_rules! on_numbers {
    ($($name:ident($($arg:ident: $type:ty),*) -> $result:ty;)*) => {
        mod numbers {
            unsafe extern "C" {
                $(pub fn $name($($arg: $type),*) -> $result;)*
            }
        }
        $(
            pub fn $name($($arg: $type),*) -> $result {
                unsafe { numbers::$name($($arg),*) }
            }
        )*
    };
}

on_numbers! {
    float_max_f32(x: f32, y: f32) -> f32;
    float_min_f32(x: f32, y: f32) -> f32;
    float_clamp_f32(x: f32, lo: f32, hi: f32) -> f32;
    float_max_f64(x: f64, y: f64) -> f64;
    float_clamp_f64(x: f64, lo: f64, hi: f64) -> f64;
    float_trunc(x: f64) -> f64;
    float_floor(x: f64) -> f64;
    float_ceil(x: f64) -> f64;
    float_round(x: f64) -> f64;
    float_round_f32(x: f32) -> f32;
    float_f64_to_f32(x: f64) -> f32;
    float_u64_to_f32(n: u64) -> f32;
    float_f64_to_u64(x: f64) -> u64;
    float_f64_to_u32(x: f64) -> u32;
    float_f64_to_i64(x: f64) -> i64;
    float_rem_euclid_f64(x: f64, y: f64) -> f64;

    bend_strength(curve: f32) -> f32;
    bend_on_grid(curve: f32) -> bool;

    path_leg(ax: f32, ay: f32, bx: f32, by: f32) -> f32;
    path_on_paper(c: f32) -> bool;

    kind_is_generator(code: u64) -> u64;
    division_new(index: u8) -> u64;
    division_from_normalised(n: f32) -> u64;
    division_normalised(index: u8) -> f32;
    division_stored(index: u8) -> f32;
    rate_hz_from_normalised(n: f32, x10: bool) -> f32;
    span_from_index(index: u8) -> u64;
    transport_beats_after(sample_rate: f64, tempo: f64, beats: f64, frames: u64) -> f64;
    transport_seconds_after(sample_rate: f64, seconds: f64, frames: u64) -> f64;
}

mod runner {
    unsafe extern "C" {
        pub fn lfo_run(_: *const u8, _: usize, _: *mut u8, _: usize) -> u64;
    }
}

/// `lfo_run` of crates/runner, as docs/RUN.md says.
pub fn lfo_run(run: &[u8], out: &mut [u8]) -> u64 {
    unsafe { runner::lfo_run(run.as_ptr(), run.len(), out.as_mut_ptr(), out.len()) }
}

mod ensemble {
    unsafe extern "C" {
        pub fn lfo_ensemble_run(_: *const u8, _: usize, _: *mut u8, _: usize) -> u64;
    }
}

/// `lfo_ensemble_run` of crates/ensemble_runner, as docs/RUN.md says.
pub fn lfo_ensemble_run(run: &[u8], out: &mut [u8]) -> u64 {
    unsafe { ensemble::lfo_ensemble_run(run.as_ptr(), run.len(), out.as_mut_ptr(), out.len()) }
}

mod item {
    unsafe extern "C" {
        pub fn lfo_item_read(_: *const u8, _: usize, _: *mut u8, _: usize) -> u64;
        pub fn lfo_item_write(_: *const u8, _: usize, _: *mut u8, _: usize) -> u64;
    }
}

/// `lfo_item_read` of crates/items: the number that reading a record gives, and 256 times the length of the item's numbers, which stand at the front
/// of `out`.
pub fn lfo_item_read(record: &[u8], out: &mut [u8]) -> u64 {
    unsafe { item::lfo_item_read(record.as_ptr(), record.len(), out.as_mut_ptr(), out.len()) }
}

/// `lfo_item_write` of crates/items: the number that writing an item gives, and 256 times the length of the record, which stands at the front of `out`.
pub fn lfo_item_write(item: &[u8], out: &mut [u8]) -> u64 {
    unsafe { item::lfo_item_write(item.as_ptr(), item.len(), out.as_mut_ptr(), out.len()) }
}
