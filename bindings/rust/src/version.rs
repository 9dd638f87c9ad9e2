//! The version, by semantic versioning.

use planner_sys::planner_version;

/// The version of these functions.
pub const VERSION: &str = env!("CARGO_PKG_VERSION");

/// The proved library's version.
#[derive(Clone, Copy, Debug, PartialEq, Eq, PartialOrd, Ord)]
pub struct Version {
    pub major: u32,
    pub minor: u32,
    pub patch: u32,
}

impl std::fmt::Display for Version {
    fn fmt(&self, f: &mut std::fmt::Formatter) -> std::fmt::Result {
        write!(f, "{}.{}.{}", self.major, self.minor, self.patch)
    }
}

/// The version of the library that is linked.
pub fn version() -> Version {
    let number = planner_version();
    Version { major: number >> 16, minor: number >> 8 & 255, patch: number & 255 }
}
