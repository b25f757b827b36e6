//! Stand-in: names the modules of this folder.
pub mod aligned;
pub mod auxiliary;
pub mod blocks;
pub mod dct;
pub mod macros;
