//! The machine that is measured on, as a page names it.

pub fn line() -> String {
    format!(
        "Machine: {}, {} cores, {} at work when this began.",
        processor(),
        cores(),
        load()
    )
}

/// All there are, as Linux gives them, though this process may be held to one of them.
fn cores() -> usize {
    let text = std::fs::read_to_string("/proc/cpuinfo").unwrap_or_default();
    let cores = text.lines().filter(|line| line.starts_with("processor"));
    match cores.count() {
        0 => std::thread::available_parallelism().map_or(1, |count| count.get()),
        count => count,
    }
}

/// The processor's name, as Linux gives it.
fn processor() -> String {
    let text = std::fs::read_to_string("/proc/cpuinfo").unwrap_or_default();
    let line = text.lines().find(|line| line.starts_with("model name"));
    match line.and_then(|line| line.split_once(':')) {
        Some((_, name)) => name.trim().to_string(),
        None => "unknown".to_string(),
    }
}

/// How many processes ran or waited to run in the last minute, on average, as Linux gives it.
fn load() -> String {
    let text = std::fs::read_to_string("/proc/loadavg").unwrap_or_default();
    let load = text.split(' ').next().unwrap_or_default();
    format!("{load} processes")
}
