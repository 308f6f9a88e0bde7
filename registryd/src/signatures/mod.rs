//! Which tags need a signature, and whether their images have one by a given key.
pub(crate) mod checking;
mod cosign;
mod keys;
pub(crate) mod rules;
pub(crate) mod verdicts;
