//! `bd check`: the rules of a release, over what runs of its code can do.

pub mod rules;
