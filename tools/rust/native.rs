
// What native.sh puts behind crates/tameswulk/src/lib.rt: the functions as C calls them, a slice as its pointer and its length.
mod linked {
    use std::slice::{from_raw_parts, from_raw_parts_mut};

    #[no_mangle]
    unsafe extern "C" fn tameswulk_fresh(cells: *mut u64, n: usize) -> u64 {
        super::tameswulk_fresh(from_raw_parts_mut(cells, n))
    }

    #[no_mangle]
    unsafe extern "C" fn tameswulk_call(cells: *mut u64, n: usize, mark: u64, op: u64, par: u64, xs: *const u64, m: usize, told: *mut u64, k: usize) -> u64 {
        super::tameswulk_call(from_raw_parts_mut(cells, n), mark, op, par, from_raw_parts(xs, m), from_raw_parts_mut(told, k))
    }

    #[no_mangle]
    unsafe extern "C" fn tameswulk_call_known(cells: *mut u64, n: usize, mark: u64, op: u64, par: u64, xs: *const u64, m: usize, told: *mut u64, k: usize) -> u64 {
        super::tameswulk_call_known(from_raw_parts_mut(cells, n), mark, op, par, from_raw_parts(xs, m), from_raw_parts_mut(told, k))
    }

    #[no_mangle]
    unsafe extern "C" fn tameswulk_script(bytes: *const u8, b: usize, cells: *mut u64, n: usize, out: *mut u8, k: usize) -> u64 {
        super::tameswulk_script(from_raw_parts(bytes, b), from_raw_parts_mut(cells, n), from_raw_parts_mut(out, k))
    }
}
