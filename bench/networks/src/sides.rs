//! The four networks, each run by a script: two verified ones behind C calls, and their two twins in plain Rust.
use crate::list::ListNetwork;
use crate::script::run;
use crate::square::SquareNetwork;

unsafe extern "C" {
    fn network_bench_list(
        setup: *const u8,
        setup_size: usize,
        script: *const u8,
        script_size: usize,
        repeats: u32,
    ) -> u64;

    fn network_bench_square(
        setup: *const u8,
        setup_size: usize,
        script: *const u8,
        script_size: usize,
        repeats: u32,
        checksum: *mut u64,
    ) -> bool;
}

/// Runs `setup` once and `script` so many times on a new network: the checksum of all answers.
pub type Side = fn(setup: &[u8], script: &[u8], repeats: u32) -> u64;

/// The verified list network.
pub fn verified_list(setup: &[u8], script: &[u8], repeats: u32) -> u64 {
    // SAFETY: the pointers and lengths are those of slices, which the call only reads; it asks nothing else.
    unsafe { network_bench_list(setup.as_ptr(), setup.len(), script.as_ptr(), script.len(), repeats) }
}

/// The verified square network.
pub fn verified_square(setup: &[u8], script: &[u8], repeats: u32) -> u64 {
    let mut checksum = 0;
    // SAFETY: as for the list network; `checksum` is written and no longer held when the call returns.
    let made = unsafe {
        network_bench_square(setup.as_ptr(), setup.len(), script.as_ptr(), script.len(), repeats, &mut checksum)
    };
    assert!(made, "no memory for the verified square network");
    checksum
}

/// The list network in plain Rust.
pub fn plain_list(setup: &[u8], script: &[u8], repeats: u32) -> u64 {
    run(ListNetwork::new(), setup, script, repeats)
}

/// The square network in plain Rust.
pub fn plain_square(setup: &[u8], script: &[u8], repeats: u32) -> u64 {
    run(SquareNetwork::new(), setup, script, repeats)
}
