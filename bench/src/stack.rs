//! How deep a call goes on the stack.

const ROOM: usize = 64 * 1024;
const PAINT: u8 = 0xC3;
/// Bytes next to the frame that paints, which are left to it.
const NEAR: usize = 512;

/// Bytes of stack that a call uses: what lies below this frame is painted, and afterwards the deepest byte that changed is looked for.
#[inline(never)]
pub fn depth(call: &mut dyn FnMut()) -> usize {
    let here = 0u8;
    let top = &raw const here as usize;
    let below = |distance: usize| (top - distance) as *mut u8;
    for distance in NEAR..ROOM {
        unsafe { below(distance).write_volatile(PAINT) };
    }
    call();
    (NEAR..ROOM)
        .rev()
        .find(|distance| unsafe { below(*distance).read_volatile() } != PAINT)
        .map_or(0, |distance| distance)
}
