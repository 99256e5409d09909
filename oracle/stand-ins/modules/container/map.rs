//! Stand-in for the index behind sets of words; only compiled.

#[derive(Debug, Clone, Default)]
pub struct Map;
