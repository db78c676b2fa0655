//! The weight shape in whole numbers, by a table.
use crate::c;

/// The weight shape at `q`, a distance over the radius in units of 2^-20, itself in units of 2^-30.
/// Every `q` is taken and none is refused; from 2^20 on it is 0.
///
/// It is proved to be within 1,537 units of the exact shape (docs/METHOD.md, 1.6), and is exact where
/// `q` is a multiple of 1,024. Times the normalizer of [`weight`](crate::weight) it is what that
/// gives, but for the errors of both. A call takes some 4 KiB of stack.
///
/// ```
/// use iisph::board_weight;
///
/// let one = 1 << 20; // the radius
/// assert_eq!(board_weight(0), 1 << 30);
/// assert_eq!(board_weight(one / 2), 1 << 28); // a quarter
/// assert_eq!(board_weight(one), 0);
/// ```
pub fn board_weight(q: u32) -> u32 {
    // SAFETY: a number for a number; every one is taken, and no memory is lent.
    unsafe { c::iisph_board_weight(q) }
}
