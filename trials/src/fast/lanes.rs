//! Four wires side by side: what is kept for each of them is a lane of 16 bits
//! in a u64, and a step is made for all at once. Wires past m-1 are constant 0:
//! they never change and cost nothing.

/// 1 in each lane.
pub const LANES: u64 = 0x0001_0001_0001_0001;
/// Lane j: the values where wire j is 1.
pub const WIRES: u64 = 0xFF00_F0F0_CCCC_AAAA;

/// The lane of a wire.
#[inline(always)]
pub fn lane(lanes: u64, wire: usize) -> u16 {
    (lanes >> (16 * wire)) as u16
}

/// All lanes, as they are stored where a lane is read alone.
#[inline(always)]
pub fn apart(lanes: u64) -> [u16; 4] {
    [0, 1, 2, 3].map(|j| lane(lanes, j))
}

#[inline(always)]
pub fn together(lanes: [u16; 4]) -> u64 {
    let [a, b, c, d] = lanes.map(u64::from);
    a | b << 16 | c << 32 | d << 48
}

/// The sum of all lanes.
#[inline(always)]
pub fn sum(lanes: u64) -> u32 {
    (lanes.wrapping_mul(LANES) >> 48) as u32
}

/// 1 in each lane that is not zero.
#[inline(always)]
fn occupied(lanes: u64) -> u64 {
    const LOW: u64 = 0x7FFF * LANES;
    (((lanes & LOW) + LOW) | lanes) >> 15 & LANES
}

/// The lanes where a set of values has 0, and where it has 1.
#[inline(always)]
pub fn sides(set: u16) -> (u64, u64) {
    let all = u64::from(set) * LANES;
    (occupied(all & !WIRES), occupied(all & WIRES))
}
