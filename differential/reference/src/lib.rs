//! The unchanged Rust: signal.rs, event.rs, operate.rs and position.rs of czsc-core, compiled as they are.

/// The module that the four files stand in.
#[allow(clippy::all)]
pub mod objects {
    include!(concat!(env!("OUT_DIR"), "/objects.rs"));
}
