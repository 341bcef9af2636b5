//! The hash of three numbers.

pub fn hash(a: u32, b: u32, c: u32) -> usize {
    let mixed =
        (u64::from(a) << 32 | u64::from(b)).wrapping_mul(0x9e37_79b9_7f4a_7c15) ^ u64::from(c).wrapping_mul(0xd6e8_feb8_6659_fd93);
    (mixed.wrapping_mul(0xff51_afd7_ed55_8ccd) >> 32) as usize
}
