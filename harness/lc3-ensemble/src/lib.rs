//! The crate lc3-ensemble 0.10.0 without its simulator: its own files, as published.
#![allow(warnings)]

include!(concat!(env!("OUT_DIR"), "/crate/all.rs"));
