//! The cases that a program keeps, against those that it kept at an earlier version.

use super::checksum;
use crate::folder::File;

pub struct Folder {
    pub files: fn() -> Vec<File>,
    /// Of all that was kept then, name after name.
    pub then: u64,
    /// Kept then, and another at the next version.
    pub changed: &'static [&'static str],
    /// Not kept then.
    pub new: &'static [&'static str],
}

impl Folder {
    /// Holds the files of the next version to those of then; `was` makes them as they were.
    pub fn compare(&self, mut files: Vec<File>, was: impl Fn(&File) -> Vec<u8>) {
        files.sort();
        let (since, kept): (Vec<_>, Vec<_>) = files
            .into_iter()
            .partition(|(name, _)| self.new.contains(&name.as_str()));
        assert!(since.iter().map(|(name, _)| name).eq(self.new));
        let mut all = Vec::new();
        let mut others = Vec::new();
        for file in &kept {
            let was = was(file);
            if was != file.1 {
                others.push(file.0.as_str());
            }
            all.extend(file.0.bytes().chain(was));
        }
        assert_eq!(others, self.changed);
        assert_eq!(checksum(&all), self.then, "{:?}", self.changed);
    }
}
