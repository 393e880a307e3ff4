//! Every limit of the language, read by the build from the constants of the
//! type `Machine` in `crates/rules/src/lib.rt`: host and machine have the same.

include!(concat!(env!("OUT_DIR"), "/limits.rs"));
