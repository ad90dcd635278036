//! The library's version.

use crate::ffi;
use std::fmt;

/// A version of the library. A later one is greater.
#[derive(Clone, Copy, PartialEq, Eq, PartialOrd, Ord, Hash, Debug)]
pub struct Version {
    /// The first of its three numbers.
    pub major: u32,
    /// The second.
    pub minor: u32,
    /// The third.
    pub patch: u32,
}

/// The version of the library that is linked.
///
/// ```
/// assert_eq!(pankholim::version().to_string(), env!("CARGO_PKG_VERSION"));
/// ```
pub fn version() -> Version {
    let number = unsafe { ffi::pankholim_version() };
    Version {
        major: number >> 16,
        minor: number >> 8 & 0xFF,
        patch: number & 0xFF,
    }
}

impl fmt::Display for Version {
    fn fmt(&self, f: &mut fmt::Formatter) -> fmt::Result {
        write!(f, "{}.{}.{}", self.major, self.minor, self.patch)
    }
}
