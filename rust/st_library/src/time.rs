//! Time.

pub use std::time::Duration;

use crate::rt::HostRuntime;

/// The right to look at the clock and to wait for it.
pub trait Clock {}

impl Clock for HostRuntime {}
