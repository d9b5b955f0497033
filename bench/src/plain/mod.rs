//! LLMNR (RFC 4795) without proofs: the same calls and the same rules as the proved library, as ordinary Rust with no
//! heap. The rules stand once, over `&mut` state; `by_value`, `c_by_value` and `by_mut` are the forms in which a program
//! calls them.

pub mod by_mut;
pub mod by_value;
pub mod c_by_value;
mod host;
mod lookup;
mod message;
pub mod names;
pub mod refusal;
pub mod state;
pub mod table;
