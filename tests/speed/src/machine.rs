//! The machine that is measured on, as Linux names it.

use std::fs::read_to_string;

/// What stands behind a name and a colon in the first such line of a file.
fn named(file: &str, name: &str) -> String {
    let text = read_to_string(file).unwrap_or_default();
    let line = text.lines().find(|line| line.starts_with(name)).unwrap_or_default();
    line.split_once(':').map_or("unknown", |(_, value)| value.trim()).to_string()
}

/// Today's date, in UTC.
fn date() -> String {
    let said = std::process::Command::new("date").args(["-u", "+%F"]).output();
    said.map_or_else(|_| "no date".to_string(), |said| String::from_utf8_lossy(&said.stdout).trim().to_string())
}

/// The machine, the date, and how many rounds were asked for; a row may take more.
pub fn print(rounds: usize) {
    let cpu = named("/proc/cpuinfo", "model name");
    let (family, model) = (named("/proc/cpuinfo", "cpu family"), named("/proc/cpuinfo", "model"));
    let model = if model == cpu { named("/proc/cpuinfo", "model\t") } else { model };
    let cores = std::thread::available_parallelism().map_or(0, usize::from);
    let kernel = read_to_string("/proc/sys/kernel/osrelease").unwrap_or_default();
    let load = read_to_string("/proc/loadavg").unwrap_or_default();
    let kernel = kernel.trim();
    println!(
        "machine: {cpu}, family {family} model {model}, {cores} cores, Linux {kernel}; {}; rounds: {rounds} or more",
        date()
    );
    println!(
        "load: {} processes that want a processor, in the last minute",
        load.split(' ').next().unwrap_or_default()
    );
}
