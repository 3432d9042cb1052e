//! How often each of some names comes. Used by tests only.

use std::collections::BTreeMap;

#[derive(Default)]
pub struct Counted(BTreeMap<String, usize>);

impl Counted {
    pub fn add(&mut self, name: impl Into<String>) {
        *self.0.entry(name.into()).or_insert(0) += 1;
    }

    /// Each of these came so often.
    pub fn least(&self, names: &[(&str, usize)]) {
        for (name, least) in names {
            let count = self.0.get(*name).copied().unwrap_or(0);
            assert!(count >= *least, "{name}: {count}, not {least}, of {:?}", self.0);
        }
    }
}
