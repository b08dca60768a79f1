//! The exported audit beside two in safe Rust, the same passes (sizes) and plainer ones (passes): answers on damaged blocks, and times.

mod blocks;
mod compare;
mod grow;
mod passes;
mod sizes;
mod times;

unsafe extern "C" {
    fn ksk_audit(block: *const u32, words: usize) -> u32;
}

#[inline(never)]
pub fn exported(b: &[u32]) -> u32 {
    unsafe { ksk_audit(b.as_ptr(), b.len()) }
}

/// Usage: audit [times [untimed]]; so many times as many blocks are compared as usual, and with `untimed` nothing is timed.
fn main() {
    let times = std::env::args().nth(1).map_or(1, |text| text.parse().expect("times is a number"));
    compare::changed(4000 * times);
    compare::order_alone(40_000 * times);
    compare::sums(40_000 * times);
    compare::large(150 * times);
    if std::env::args().nth(2).as_deref() == Some("untimed") {
        return;
    }
    for n in [2016, 4096] {
        times::table(n);
    }
}
