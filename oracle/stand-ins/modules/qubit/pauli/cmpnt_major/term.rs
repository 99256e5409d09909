//! Stand-in for a single term; nothing given uses it.
