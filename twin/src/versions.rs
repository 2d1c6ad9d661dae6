//! Old settings, kept by number: R-7 of document 02.

use crate::axis::{Axis, Settings, Station};
use std::collections::VecDeque;

/// Versions of a farm that are kept.
pub const KEPT: usize = 16;

/// The versions of a farm, numbered from 1 in the order in which they were taken, so that the numbers of those that are
/// kept rise by 1 to the last used.
#[derive(Clone, Debug, PartialEq, Eq)]
pub struct Versions {
    /// How many are kept no more; these had the first numbers.
    pub dropped: u16,
    /// Those that are kept, oldest first.
    pub kept: VecDeque<Settings>,
}

impl Versions {
    /// Those of a fresh station, whose settings are no version.
    pub fn none() -> Versions {
        Versions { dropped: 0, kept: VecDeque::new() }
    }

    /// The last number used, 0 for none.
    pub fn last(&self) -> u16 {
        self.dropped + self.count()
    }

    /// How many are kept.
    fn count(&self) -> u16 {
        self.kept.len() as u16
    }

    /// The settings of a version that is kept.
    fn get(&self, number: u32) -> Option<&Settings> {
        let place = number.checked_sub(u32::from(self.dropped) + 1)?;
        self.kept.get(place as usize)
    }

    /// Keeps these settings under the next number, which must not be used up.
    fn take(&mut self, settings: Settings) {
        if self.kept.len() == KEPT {
            self.kept.pop_front();
            self.dropped += 1;
        }
        self.kept.push_back(settings);
    }
}

impl Axis {
    /// Stores all settings and takes a version of them: its number, or number 15 where the numbers are used up.
    pub(crate) fn store(&mut self, settings: Settings) -> Result<u16, u8> {
        let number = self.versions.last().checked_add(1).ok_or(15)?;
        self.versions.take(settings.clone());
        self.settings = settings;
        Ok(number)
    }
}

/// The versions of a farm that are kept: the numbers `oldest` to `oldest + kept - 1`.
#[derive(Clone, Copy, Debug, PartialEq, Eq)]
pub struct Listed {
    /// The oldest number, or the first to come where none is kept.
    pub oldest: u16,
    /// How many are kept.
    pub kept: u16,
    /// Refusal number, 0 for none; then all else is 0.
    pub number: u8,
}

/// The answer of a going back.
#[derive(Clone, Copy, Debug, PartialEq, Eq)]
pub struct Returned {
    /// Elements stored.
    pub stored: u16,
    /// The number of the new version.
    pub version: u16,
    /// Refusal number, 0 for none; then all else is 0.
    pub number: u8,
}

impl Station {
    /// Lists a farm's versions that are kept.
    pub fn versions(&self, farm: u32) -> Listed {
        match self.own(farm) {
            Ok(index) => {
                let versions = &self.axes[index].versions;
                Listed { oldest: versions.dropped + 1, kept: versions.count(), number: 0 }
            }
            Err(number) => Listed { oldest: 0, kept: 0, number },
        }
    }

    /// Goes back to a version of a farm: stores all its settings, as a new version.
    pub fn go_back(&mut self, farm: u32, version: u32) -> Returned {
        match self.returned(farm, version) {
            Ok(version) => Returned { stored: Settings::ELEMENTS, version, number: 0 },
            Err(number) => Returned { stored: 0, version: 0, number },
        }
    }

    /// The number of the new version; else that of the refusal.
    fn returned(&mut self, farm: u32, version: u32) -> Result<u16, u8> {
        let index = self.own(farm)?;
        let part = &mut self.axes[index];
        // Copied before it is dropped, where it is the oldest of 16.
        let settings = part.versions.get(version).ok_or(14)?.clone();
        part.store(settings)
    }
}
