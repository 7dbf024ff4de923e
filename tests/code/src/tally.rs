//! The counts that a task gives.

use std::io;

/// Writes counts, as in `2 cases, 0 differ`.
///
/// # Errors
///
/// An output fails.
pub fn tell(rt: &HostRuntime, counts: &[(u64, &str)]) -> io::Result<()> {
    let mut before = "";
    for (count, what) in counts {
        print!(rt; "{before}{count} {what}")?;
        before = ", ";
    }
    println!(rt; "")
}
