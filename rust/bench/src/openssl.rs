//! What the `openssl` command says of its own SHA-1, where the machine has it.

use std::process::Command;

/// Nanoseconds for one message of that size.
pub fn sha1(octets: usize) -> Option<f64> {
    let output = Command::new("openssl")
        .args([
            "speed",
            "-seconds",
            "1",
            "-bytes",
            &octets.to_string(),
            "sha1",
        ])
        .output()
        .ok()?;
    // The last line: "sha1", then thousands of octets in a second, as "812345.67k".
    let text = String::from_utf8(output.stdout).ok()?;
    let rate = text.lines().last()?.split_whitespace().last()?;
    let thousands: f64 = rate.strip_suffix('k')?.parse().ok()?;
    Some(octets as f64 / (thousands * 1000.0) * 1e9)
}
