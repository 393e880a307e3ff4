//! Which script, which library, and when.

use super::sha256;
use explain::Json;
use nuyardi::limits;
use std::time::{SystemTime, UNIX_EPOCH};

/// The level of the language: the last request of document 02 that has landed.
pub const LEVEL: &str = "W14";
/// The version of the command and the library.
pub const VERSION: &str = env!("CARGO_PKG_VERSION");
/// The sha256 of the library that is linked.
pub const LIBRARY: &str = env!("LIBRARY_SHA256");
/// The logic sum of the prover on the machine that built this.
pub const LOGIC: &str = env!("LOGIC_SUM");

/// Which build this is, in JSON.
pub fn build(object: Json) -> Json {
    object
        .with("version", VERSION)
        .with("level", LEVEL)
        .with("library", LIBRARY)
        .with("logic", LOGIC)
}

pub struct Identity {
    pub file: String,
    /// Its bytes and their sha256; none of a text that is too long, of which not
    /// all is read.
    pub content: Option<(usize, String)>,
    pub time: Option<String>,
}

impl Identity {
    pub fn of(file: &str, text: &[u8], time: Option<String>) -> Identity {
        let whole = text.len() <= limits::TEXT_BYTES;
        Identity {
            file: file.to_string(),
            content: whole.then(|| (text.len(), sha256::hex(text))),
            time,
        }
    }
}

/// The time now, in UTC.
pub fn now() -> String {
    let since = SystemTime::now().duration_since(UNIX_EPOCH);
    shown(since.map_or(0, |since| since.as_secs()))
}

/// Days from 1970-01-01 as year, month and day: the years are counted from
/// 1 March of year 0, so that a leap day is the last of its year.
fn date(days: u64) -> (u64, u64, u64) {
    let days = days + 719_468;
    let (era, day) = (days / 146_097, days % 146_097);
    let year = (day - day / 1_460 + day / 36_524 - day / 146_096) / 365;
    let day = day - (365 * year + year / 4 - year / 100);
    let month = (5 * day + 2) / 153;
    let day = day - (153 * month + 2) / 5 + 1;
    let year = era * 400 + year;
    match month {
        0..=9 => (year, month + 3, day),
        _ => (year + 1, month - 9, day),
    }
}

/// Seconds from 1970 as date and time.
fn shown(seconds: u64) -> String {
    let (year, month, day) = date(seconds / 86_400);
    let (hour, minute, second) = (seconds / 3_600 % 24, seconds / 60 % 60, seconds % 60);
    format!("{year:04}-{month:02}-{day:02} {hour:02}:{minute:02}:{second:02} UTC")
}

#[cfg(test)]
mod tests {
    use super::{shown, LEVEL, VERSION};
    use std::path::Path;

    #[test]
    fn dates() {
        for (seconds, date) in [
            (0, "1970-01-01 00:00:00 UTC"),
            (951_782_399, "2000-02-28 23:59:59 UTC"),
            (951_782_400, "2000-02-29 00:00:00 UTC"),
            (951_868_800, "2000-03-01 00:00:00 UTC"),
            (1_735_689_599, "2024-12-31 23:59:59 UTC"),
            (4_107_542_400, "2100-03-01 00:00:00 UTC"),
        ] {
            assert_eq!(shown(seconds), date);
        }
    }

    /// The level is the last request that the changes tell of, and the version
    /// that of the file.
    #[test]
    fn level_and_version() {
        let root = Path::new(env!("CARGO_MANIFEST_DIR")).join("../..");
        let read = |name: &str| std::fs::read_to_string(root.join(name)).expect("a file");
        let changes = read("docs/CHANGES.md");
        let landed = changes
            .lines()
            .filter_map(|line| line.strip_prefix("## W")?.split(':').next()?.parse().ok());
        let last: Option<u32> = landed.max();
        assert_eq!(last.map(|last| format!("W{last}")).as_deref(), Some(LEVEL));
        assert_eq!(read("VERSION").trim(), VERSION);
    }
}
