//! A separate solver, to compare a verified one with. Nothing here is shared with what it is compared to.

pub mod closure;
pub mod gen;
pub mod listing;
pub mod path;
pub mod problem;
pub mod rng;
pub mod sheet;
pub mod solve;
pub mod table;
pub mod tuned;
pub mod verified;
pub mod wire;

/// Runs on a roomy stack: nothing is known of how much the verified library needs.
pub fn on_roomy_stack(work: impl FnOnce() + Send + 'static) {
    std::thread::Builder::new()
        .stack_size(256 << 20)
        .spawn(work)
        .unwrap()
        .join()
        .unwrap();
}
