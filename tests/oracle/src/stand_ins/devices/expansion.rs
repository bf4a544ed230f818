//! Expansion cards, of which there are none.

/// What a card would tell a debugger.
#[derive(Debug, Clone, Default)]
pub struct ExpansionCardDebugInfo;
