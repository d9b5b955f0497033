//! An independent second program for link-local multicast name resolution: the rules, random call files and the
//! comparison with another program, pairs of calls in both orders, and links in simulation.

pub mod calls;
pub mod checks;
pub mod compare;
pub mod faults;
pub mod history;
pub mod host;
pub mod host_checks;
pub mod interfaces;
pub mod lines;
pub mod links;
pub mod lookup;
pub mod make;
pub mod message;
pub mod names;
pub mod options;
pub mod orders;
pub mod pairs;
pub mod planted;
pub mod program;
pub mod random;
pub mod reply;
pub mod rows;
pub mod session;
pub mod shrink;
pub mod table;
pub mod tally;
pub mod workers;
