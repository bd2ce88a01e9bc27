#![doc = include_str!("../README.md")]
mod batch;
mod handle;
// Elsewhere nothing can be linked, unless a program has a heap of its own.
#[cfg(all(
    target_os = "linux",
    any(target_arch = "x86_64", target_arch = "aarch64")
))]
mod heap;
pub mod pp;
mod raw;
pub mod reader;
mod stream;
pub mod token;
