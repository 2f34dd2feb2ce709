//! Whether the archive that was linked is the one that this crate was made for.

use crate::ffi;
use core::mem::size_of;

/// This crate's version: major × 65,536 + minor × 256 + patch.
pub const VERSION: u32 = 0x00_06_00;

/// The archive's version, in the same form.
pub fn version() -> u32 {
    // SAFETY: nothing goes in and a number comes back.
    unsafe { ffi::niulassenc_version() }
}

/// Whether crate and archive go together: they have one version, and an endpoint
/// and a detector have as many bytes here as there. A start and a load ask this.
pub fn matches() -> bool {
    // SAFETY: nothing goes in and a number comes back.
    let endpoint = unsafe { ffi::niulassenc_endpoint_bytes() };
    // SAFETY: the same.
    let detector = unsafe { ffi::niulassenc_detector_bytes() };
    version() == VERSION
        && usize::try_from(endpoint) == Ok(size_of::<ffi::Endpoint>())
        && usize::try_from(detector) == Ok(size_of::<ffi::Detector>())
}
