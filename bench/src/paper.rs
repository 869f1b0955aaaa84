//! The oracle's own reader and writer of profiles and images: ch32-hal has none.
#![allow(dead_code)]

#[path = "../../oracle/src/paper/codec.rs"]
pub mod codec;
#[path = "../../oracle/src/paper/codes.rs"]
pub mod codes;
#[path = "../../oracle/src/paper/layout.rs"]
pub mod layout;
