//! Judges that are wrong on purpose: the measure of what the cases notice.

pub mod judges;
pub mod noticing;
