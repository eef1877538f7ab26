//! The original's Damiao crate: protocol, registers and motor are copies of its files. The copy of
//! motor.rs declares `adapter` as its child, so that it reaches the private items.

include!(concat!(env!("OUT_DIR"), "/modules.rs"));
