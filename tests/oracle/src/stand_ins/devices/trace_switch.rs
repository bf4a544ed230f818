//! The switch for one device's trace.

/// Keeps the trace off.
pub fn pec_trace_enabled() -> bool {
    false
}
