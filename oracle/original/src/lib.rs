//! The original sources, unchanged and in place, and the one name of another file that they mention.
#![allow(warnings)]

pub extern crate cfg_if;
pub extern crate chrono;
pub extern crate derivative;
pub extern crate parking_lot;
pub extern crate rand_xoshiro;
pub extern crate serde;
#[macro_use]
pub extern crate serde_json;
pub extern crate urlencoding;

/// util.rs names this trait in its profiler.
pub mod mwpm_solver {
    pub trait PrimalDualSolver {
        fn generate_profiler_report(&self) -> serde_json::Value;
    }
}

include!(concat!(env!("OUT_DIR"), "/modules.rs"));
