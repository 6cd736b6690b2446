//! What the four files of the Rust name and do not hold, so that they compile unchanged: macros, types, hubs.
//! Nothing here decides anything of the protocol.
#![allow(dead_code)]

macro_rules! pf_trace { ($($word:tt)*) => { $crate::utils::told(|| format!($($word)*)) } }
macro_rules! pf_debug { ($($word:tt)*) => { $crate::utils::told(|| format!($($word)*)) } }
macro_rules! logged_err { ($($word:tt)*) => { Err($crate::utils::SummersetError(format!($($word)*))) } }

pub mod drive;
pub mod plain;
pub mod refusals;
pub mod server;
pub mod show;
pub mod trace;
pub mod utils;

pub mod client {
    pub type ClientId = u64;
}

pub mod protocols {
    pub mod epaxos;
}
