//! What the programs of the benchmark share: a plain LLMNR responder and querier, written by hand, which is the
//! yardstick, and the measuring of a call's stack.

pub mod plain;
pub mod stack;
