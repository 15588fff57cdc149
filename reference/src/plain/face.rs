//! The plain versions for C: areas as a pointer and a count, as the library takes them.

use crate::Parts;
use std::slice::{from_raw_parts, from_raw_parts_mut};

/// # Safety
/// Each pointer is that of an area of so many numbers, and the areas do not overlap; so in every call of this file.
#[no_mangle]
pub unsafe extern "C" fn plain_recognise(
    p: *const i64,
    n: usize,
    out: *mut i64,
    room: usize,
) -> i64 {
    crate::recognise::<false>(from_raw_parts(p, n), from_raw_parts_mut(out, room))
}

/// # Safety
/// As above.
#[no_mangle]
pub unsafe extern "C" fn plain_recognise_quick(
    p: *const i64,
    n: usize,
    out: *mut i64,
    room: usize,
) -> i64 {
    crate::recognise::<true>(from_raw_parts(p, n), from_raw_parts_mut(out, room))
}

/// # Safety
/// As above.
#[no_mangle]
pub unsafe extern "C" fn plain_recognise_by_legs(
    p: *const i64,
    n: usize,
    out: *mut i64,
    room: usize,
) -> i64 {
    crate::recognise_by_legs(from_raw_parts(p, n), from_raw_parts_mut(out, room))
}

/// # Safety
/// As above.
#[no_mangle]
pub unsafe extern "C" fn plain_joins(
    ax: i64,
    ay: i64,
    zx: i64,
    zy: i64,
    tx: i64,
    ty: i64,
    out: *mut i64,
    room: usize,
) -> i64 {
    crate::joins([ax, ay, zx, zy, tx, ty], from_raw_parts_mut(out, room))
}

/// # Safety
/// As above.
#[no_mangle]
pub unsafe extern "C" fn plain_check(s: *const u8, len: usize) -> i64 {
    crate::check(from_raw_parts(s, len))
}

/// # Safety
/// As above.
#[no_mangle]
pub unsafe extern "C" fn plain_report(s: *const u8, len: usize, text: *mut u8, room: usize) -> i64 {
    crate::report(from_raw_parts(s, len), from_raw_parts_mut(text, room))
}

/// How many numbers of 64 bits a C program lends for the state.
const STATE: usize = 16;
const _: () = assert!(size_of::<Parts>() <= 8 * STATE && align_of::<Parts>() <= 8);

/// # Safety
/// The pointer is that of an area for a state.
#[no_mangle]
pub unsafe extern "C" fn plain_parts_start(state: *mut Parts) {
    state.write(Parts::default());
}

/// # Safety
/// The state was started, and the part is an area of so many bytes.
#[no_mangle]
pub unsafe extern "C" fn plain_parts_feed(state: *mut Parts, part: *const u8, len: usize) -> i64 {
    crate::feed(&mut *state, from_raw_parts(part, len))
}

/// # Safety
/// The state was started.
#[no_mangle]
pub unsafe extern "C" fn plain_parts_end(state: *mut Parts) -> i64 {
    crate::end(&mut *state)
}
