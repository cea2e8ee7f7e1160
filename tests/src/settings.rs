//! Numbers that a run takes from the environment.

use std::str::FromStr;

/// The usual seed.
pub const SEED: u64 = 20_251_115;

/// The seed in FIRROZKA_SEED, or the usual one.
pub fn seed() -> u64 {
    setting("FIRROZKA_SEED", SEED)
}

/// The number in an environment variable, or the usual one.
pub fn setting<T: FromStr>(name: &str, usual: T) -> T {
    match std::env::var(name) {
        Ok(text) => match text.parse() {
            Ok(value) => value,
            Err(_) => panic!("{name}={text} is no number"),
        },
        Err(_) => usual,
    }
}
