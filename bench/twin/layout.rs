//! Where the words of an image stand.

/// How many entries of the journal count.
pub const COUNT: u16 = 3;
/// The first free word of the heap.
pub const TOP: u16 = 5;
/// How many applets there are.
pub const APPLETS: u16 = 7;
/// The first word of the two with the ends of the areas of transient cells.
pub const AREA_ENDS: u16 = 8;
/// The entries of the journal: an address and the word that was there, each.
pub const JOURNAL: u16 = 16;
/// How many entries it has.
pub const CAPACITY: u16 = 256;
/// The registry: of each applet its AID object, its package and its instance.
pub const REGISTRY: u16 = 560;
pub const MOST_APPLETS: u16 = 64;
pub const MOST_PACKAGES: usize = 32;
/// Where the heap begins.
pub const HEAP: u16 = 752;
