//! Small replacements for the parts that the original leans on and that are left out here.

pub mod bus;
pub mod cpu;
pub mod cpu_cache;
pub mod devices;
pub mod tracing;
