//! Sites: a process and one of its locations, numbered 16 × process + location.

use crate::table::{Edge, MAX_LOCATIONS, MAX_PROCESSES};

pub const SITES: usize = MAX_PROCESSES * MAX_LOCATIONS;

/// The number of a site; none where no table within the limits has one.
pub fn site(process: u8, location: u8) -> Option<usize> {
    let (process, location) = (usize::from(process), usize::from(location));
    (process < MAX_PROCESSES && location < MAX_LOCATIONS).then_some(process * MAX_LOCATIONS + location)
}

impl Edge {
    /// The site it leaves.
    pub fn source(&self) -> Option<usize> {
        site(self.process, self.from)
    }

    /// The site it enters.
    pub fn target(&self) -> Option<usize> {
        site(self.process, self.to)
    }
}

/// A set of sites, a bit each.
#[derive(Clone, Copy, Debug, Default, PartialEq, Eq)]
pub struct SiteSet(u128);

impl SiteSet {
    pub fn insert(&mut self, site: usize) {
        self.0 |= 1 << site;
    }

    pub fn contains(self, site: usize) -> bool {
        self.0 >> site & 1 == 1
    }

    pub fn and(self, other: SiteSet) -> SiteSet {
        SiteSet(self.0 & other.0)
    }

    pub fn without(self, other: SiteSet) -> SiteSet {
        SiteSet(self.0 & !other.0)
    }

    pub fn first(self) -> Option<usize> {
        (self.0 != 0).then(|| self.0.trailing_zeros() as usize)
    }

    /// Takes the lowest site out.
    pub fn pop(&mut self) -> Option<usize> {
        let first = self.first()?;
        self.0 &= self.0 - 1;
        Some(first)
    }
}

impl Extend<usize> for SiteSet {
    fn extend<I: IntoIterator<Item = usize>>(&mut self, sites: I) {
        sites.into_iter().for_each(|site| self.insert(site));
    }
}

impl FromIterator<usize> for SiteSet {
    fn from_iter<I: IntoIterator<Item = usize>>(sites: I) -> SiteSet {
        let mut set = SiteSet::default();
        set.extend(sites);
        set
    }
}
