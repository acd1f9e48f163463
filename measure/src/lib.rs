//! What the programs of this package share.

pub mod clock;
pub mod draw;
pub mod fact;
pub mod family;
pub mod hex;
pub mod process;
pub mod question;
pub mod sheets;
pub mod stack;
