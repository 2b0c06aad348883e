//! What was met, and how often.
use std::collections::BTreeMap;

#[derive(Default)]
pub struct Counts(pub BTreeMap<String, u64>);

impl Counts {
    /// Each name is there from the start, so that what is never met shows as 0: lists of names, each list with what stands before them.
    pub fn of(lists: &[(&str, &[&str])]) -> Counts {
        let mut all = BTreeMap::new();
        for (under, name) in lists.iter().flat_map(|(under, names)| names.iter().map(move |name| (under, name))) {
            match name.split_once('#') {
                None => drop(all.insert(format!("{under}{name}"), 0)),
                // "trial #1-6" stands for six names.
                Some((before, range)) => {
                    let (first, last) = range.split_once('-').unwrap();
                    for k in first.parse::<u32>().unwrap()..=last.parse().unwrap() {
                        all.insert(format!("{under}{before}{k}"), 0);
                    }
                }
            }
        }
        Counts(all)
    }
    /// Counts without names take nothing down.
    pub fn met(&mut self, name: &str, holds: bool) {
        if holds && !self.0.is_empty() {
            *self.0.get_mut(name).unwrap_or_else(|| panic!("no count has the name {name}")) += 1;
        }
    }
    pub fn under(&mut self, under: &'static str) -> Under<'_> {
        Under { counts: self, under }
    }
    pub fn none(&self) -> Vec<&String> {
        self.0.iter().filter(|(_, times)| **times == 0).map(|(name, _)| name).collect()
    }
}

/// The counts of one kind of message: the same words stand before each name.
pub struct Under<'a> {
    counts: &'a mut Counts,
    under: &'static str,
}

impl Under<'_> {
    pub fn met(&mut self, name: &str, holds: bool) {
        if holds {
            self.counts.met(&format!("{}{name}", self.under), true);
        }
    }
}
