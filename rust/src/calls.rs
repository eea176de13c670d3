//! The two C calls on byte slices. Numbers in bytes are most significant byte first. A call that is refused changes no byte of `out`, and one
//! that is not writes to its front and touches nothing beyond.
#![allow(unsafe_code)]

use crate::Refusal;

mod c {
    #[link(name = "hisowake", kind = "static")]
    extern "C" {
        pub fn hisowake_point(plan: *const u8, plan_len: u64, index: u64, out: *mut u8, out_len: u64) -> u64;
        pub fn hisowake_window_count(
            plan: *const u8,
            plan_len: u64,
            start: u64,
            count: u64,
            window: *const u8,
            window_len: u64,
            out: *mut u8,
            out_len: u64,
        ) -> u64;
    }
}

/// A slice's length, as the C calls take it.
fn len(bytes: &[u8]) -> u64 {
    bytes.len() as u64
}

/// A code of the C calls: they answer 0 or the number of a refusal, and no other.
fn answer(code: u64) -> Result<(), Refusal> {
    match code {
        0 => Ok(()),
        _ => Err(Refusal::from_number(code).expect("the number of a refusal")),
    }
}

/// Writes the point of an index to the front of `out`: the numerator of each axis, 8 bytes each.
///
/// # Errors
///
/// Refusals, in this order: 1, 3 to 10 as the plan is read, 11, 13.
///
/// ```
/// let mut out = [0; 8];
/// hisowake::calls::point(&[0x08, 0x10], 17, &mut out)?; // base 3
/// assert_eq!(u64::from_be_bytes(out), 9685512225); // 25/27 of 3^21
/// # Ok::<(), hisowake::Refusal>(())
/// ```
pub fn point(plan: &[u8], index: u64, out: &mut [u8]) -> Result<(), Refusal> {
    // SAFETY: slices are valid for their lengths, and `out` is borrowed alone.
    answer(unsafe { c::hisowake_point(plan.as_ptr(), len(plan), index, out.as_mut_ptr(), len(out)) })
}

/// Writes S and the bound to the front of `out`, 8 bytes each. The run has the indexes start to start + count - 1, and the window u and then q
/// for each axis, 4 bytes each.
///
/// # Errors
///
/// Refusals, in this order: 1, 3 to 10 as the plan is read, 11, 14, 13.
///
/// ```
/// let mut out = [0; 16];
/// let window = [0, 0, 0, 1, 0, 0, 0, 2]; // below 1/2
/// hisowake::calls::window_count(&[0x08, 0x08], 0, 6, &window, &mut out)?; // base 2
/// assert_eq!(out, [0, 0, 0, 0, 0, 0, 0, 3, 0, 0, 0, 0, 0, 0, 0, 4]);
/// # Ok::<(), hisowake::Refusal>(())
/// ```
pub fn window_count(plan: &[u8], start: u64, count: u64, window: &[u8], out: &mut [u8]) -> Result<(), Refusal> {
    // SAFETY: as `point`.
    answer(unsafe {
        c::hisowake_window_count(plan.as_ptr(), len(plan), start, count, window.as_ptr(), len(window), out.as_mut_ptr(), len(out))
    })
}
