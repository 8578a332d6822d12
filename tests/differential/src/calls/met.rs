//! What cases met, by name: every name has to be met.

pub struct Met(Vec<(&'static str, u64)>);

impl Met {
    pub fn of(kinds: impl IntoIterator<Item = &'static str>) -> Met {
        Met(kinds.into_iter().map(|kind| (kind, 0)).collect())
    }

    /// What one case met; other names count for nothing.
    pub fn add(&mut self, met: &[&str]) {
        for (kind, count) in &mut self.0 {
            *count += u64::from(met.contains(kind));
        }
    }

    pub fn missing(&self) -> impl Iterator<Item = &'static str> + '_ {
        self.0.iter().filter(|(_, count)| *count == 0).map(|(kind, _)| *kind)
    }

    pub fn text(&self) -> String {
        self.0.iter().map(|(kind, count)| format!("{count:>12}  {kind}\n")).collect()
    }
}
