//! The instructions of one call, counted by callgrind on runs of this program.
//! Two numbers of calls, so that all that is done once drops out.

use std::process::Command;

/// The numbers of calls of the two runs.
pub const FEWER: u64 = 100;
pub const MORE: u64 = 1100;

/// The instructions of one round of the loop with this call in it, whole, as what else differs between runs is a few.
pub fn round(who: &str, name: &str, size: usize) -> Result<f64, String> {
    let fewer = counted(who, name, size, FEWER)?;
    let more = counted(who, name, size, MORE)?;
    Ok(((more as f64 - fewer as f64) / (MORE - FEWER) as f64).round())
}

/// The instructions of a whole run.
fn counted(who: &str, name: &str, size: usize, times: u64) -> Result<u64, String> {
    let own = std::env::current_exe().map_err(|error| error.to_string())?;
    let output = Command::new("valgrind")
        .args(["--tool=callgrind", "--callgrind-out-file=/dev/null"])
        .arg(own)
        .args(["one", who, name, &size.to_string(), &times.to_string()])
        .output()
        .map_err(|error| format!("valgrind: {error}"))?;
    let said = String::from_utf8_lossy(&output.stderr);
    let total = said.lines().find_map(|line| line.split_once("Collected :")?.1.trim().parse().ok());
    total.filter(|_| output.status.success()).ok_or_else(|| format!("{who} {name} {size}: no count in: {said}"))
}
