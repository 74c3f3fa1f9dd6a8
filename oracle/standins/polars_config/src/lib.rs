//! Stand-in: fixed settings; the join's answers depend on none of them.

/// The settings.
pub struct Config;

impl Config {
    /// Rows of an ideal frame; morsel.rs hands it on, nothing here asks for it.
    pub fn ideal_morsel_size(&self) -> u64 {
        4096
    }

    /// Whether graph.rs tells its steps; it does not.
    pub fn verbose(&self) -> bool {
        false
    }
}

/// The one set of settings.
pub fn config() -> &'static Config {
    &Config
}
