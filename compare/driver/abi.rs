//! The C interface by which another engine is compared: what the Rust binding declares, so that its declarations are compared too.
//! include/smyrilox.h says more.

#[allow(dead_code)]
#[path = "../../bindings/rust/src/ffi.rs"]
mod ffi;

pub use ffi::*;
