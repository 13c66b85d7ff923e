//! What whoever runs a node has to know, on standard error: one line each, of names and values.

use log::{Level, LevelFilter, Log, Metadata, Record};
use std::collections::BTreeMap;
use std::io::{self, Write};
use std::sync::{Mutex, PoisonError};
use std::time::{Duration, Instant, SystemTime, UNIX_EPOCH};

/// Between two prints of one text.
const QUIET: Duration = Duration::from_secs(10);
/// How many texts are remembered.
const MOST: usize = 1000;

static TELLING: Telling = Telling(Mutex::new(BTreeMap::new()));

/// The texts that were printed, and when.
struct Telling(Mutex<BTreeMap<String, Instant>>);

/// Prints what is told from now on, up to what `WACHELPO_LOG` names: `error`, `warn`, `info` (if it isn't set), `debug`.
pub fn start() {
    let named = std::env::var("WACHELPO_LOG").unwrap_or("info".into());
    let level = named.parse();
    // (nobody else has set one)
    let _ = log::set_logger(&TELLING);
    log::set_max_level(*level.as_ref().unwrap_or(&LevelFilter::Info));
    if level.is_err() {
        log::warn!("WACHELPO_LOG: {named} is none of error, warn, info, debug; it is taken as info");
    }
}

impl Telling {
    /// Whether a warning has to be printed: it wasn't just now.
    fn is_news(&self, text: &str) -> bool {
        let mut told = self.0.lock().unwrap_or_else(PoisonError::into_inner);
        if told.get(text).is_some_and(|at| at.elapsed() < QUIET) {
            return false;
        }
        if told.len() >= MOST {
            told.clear();
        }
        told.insert(text.to_string(), Instant::now());
        true
    }
}

impl Log for Telling {
    fn enabled(&self, _: &Metadata<'_>) -> bool {
        true
    }

    fn log(&self, record: &Record<'_>) {
        let text = record.args().to_string();
        if record.level() == Level::Warn && !self.is_news(&text) {
            return;
        }
        let now = SystemTime::now().duration_since(UNIX_EPOCH).unwrap_or_default();
        let level = record.level().as_str().to_lowercase();
        let line = format!(
            "time={}.{:03} level={level} text={text:?}\n",
            now.as_secs(),
            now.subsec_millis()
        );
        // a standard error that is closed or full is no failure
        let _ = io::stderr().write_all(line.as_bytes());
    }

    fn flush(&self) {}
}
