//! The recorder, which is the one file beside this folder; and with the feature `native` the library, linked statically: call
//! `domepeeler::judge_here(domepeeler::native::verdict)` once, and it judges in your process.
#[path = "../domepeeler.rs"]
mod recorder;

#[cfg(feature = "native")]
#[path = "../domepeeler_native.rs"]
pub mod native;

pub use recorder::*;
