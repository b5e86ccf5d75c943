//! Version controlled memory: lines of 16 bytes with marks to go back to.
//!
//! The work is done by the proved library that this crate links, `libvcm.a`, which `tools/library` of the repository proves and builds.
//!
//! | | |
//! |---|---|
//! | [`Store`] | a store that owns its memory: what most programs want |
//! | [`Trial`] | a mark that is rolled back when it is dropped, unless it is kept |
//! | [`Store::write_block`], [`Store::write_all`] | many writes in one call, a list of [`Item`] |
//! | [`Store::save`], [`Store::load`] | a whole store as bytes |
//! | [`Settings`] | how many lines, frames and pages a store has |
//! | [`Refusal`] | why a call was turned down, in words too |
//! | [`calls`] | the library's calls over memory that the caller lends |
//!
//! # Features
//!
//! The crate is `no_std`. `alloc` has what owns memory ([`Store`], [`Trial`], and their errors [`LoadError`] and [`FirstRefusal`]); `std`, the
//! default, has `alloc` and makes [`Refusal`] and these a `std::error::Error`. Everything else stands without either.
//!
//! # For build scripts
//!
//! The crate has `links = "vcm"`. The build script of a crate that depends on it finds the folder of `libvcm.a` in `DEP_VCM_LIBDIR` and,
//! where the repository is around the crate, that of the C header in `DEP_VCM_INCLUDE`.
#![no_std]
#![deny(missing_docs)]
#![deny(unsafe_code)]

#[cfg(feature = "alloc")]
extern crate alloc;
#[cfg(feature = "std")]
extern crate std;

mod answer;
mod border;
#[allow(unsafe_code)]
pub mod calls;
mod refusal;
#[cfg(feature = "alloc")]
mod saved;
mod settings;
#[cfg(feature = "alloc")]
mod store;
#[cfg(feature = "alloc")]
mod trial;
#[cfg(feature = "alloc")]
mod write_block;

pub use answer::{Counts, Origin, Reading};
pub use border::{Cache, Item, Registers, State};
pub use refusal::Refusal;
#[cfg(feature = "alloc")]
pub use saved::LoadError;
pub use settings::Settings;
#[cfg(feature = "alloc")]
pub use store::Store;
#[cfg(feature = "alloc")]
pub use trial::Trial;
#[cfg(feature = "alloc")]
pub use write_block::FirstRefusal;

/// The library's answers in its own numbers, as [`calls`] gives them.
pub mod numbers {
    pub use crate::border::{Counted, Need, Reading, Verdict};
}
