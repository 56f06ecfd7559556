//! An independent second implementation of the era machine.
//!
//! The library holds the machine, the player of files of calls, and the parts
//! of the trace generator; the binaries `second` and `traces` are thin shells.

pub mod answer;
pub mod block;
pub mod driver;
pub mod machine;
pub mod play;
pub mod random;
pub mod rescue;
pub mod words;
