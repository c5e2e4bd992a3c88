//! The four files under the module that they had, with stand-ins for their neighbours, and the driver.

include!(concat!(env!("OUT_DIR"), "/modules.rs"));

mod bare;
mod books;
mod ctxt;
mod display_named;
mod drive;
mod lean;
pub mod probe;
mod slab;

pub use self::bare::Bare;
pub use self::books::{Held, Shared};
pub use self::drive::{drive, Driven, Stop};
pub use self::lean::Lean;

use self::ctxt::Ctxt;
use self::display_named::DisplayNamed;
use self::linear::Linear;
use self::needs::{Address, Any};
use self::scopes::{DanglingScope, ScopeHandle, ScopeId, Scopes};
use self::slab::Slab;
use self::slots::Slots;
