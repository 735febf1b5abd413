//! Words that outlive the power: in memory or over a file, with a fuse.
use std::fs::File;
use std::io::Write;
use std::os::unix::fs::FileExt;

/// Words, with room for the sum of any address, a header and any index, which so needs no test.
pub type Words = Box<[u16; ROOM]>;
const ROOM: usize = 2 * 65536 + 8;

/// How many words an image has.
pub const SIZE: u16 = 65535;

/// The store refused a write; nothing but a power up may follow.
#[derive(Debug)]
pub struct Down;

/// As many values, all the same.
pub fn many<T: Copy, const COUNT: usize>(value: T) -> Box<[T; COUNT]> {
    vec![value; COUNT].try_into().ok().expect("as many")
}

pub trait Store {
    fn read(&self, address: impl Into<usize>) -> u16;
    fn write(&mut self, address: u16, word: u16) -> Result<(), Down>;

    /// Writes the words from an address on, one after the other.
    fn write_run(&mut self, first: u16, words: &[u16]) -> Result<(), Down> {
        for (address, word) in (first..).zip(words) {
            self.write(address, *word)?;
        }
        Ok(())
    }
}

pub struct InMemory(Words);

impl InMemory {
    pub fn new() -> Self {
        InMemory(many(0))
    }
}

impl Store for InMemory {
    #[inline(always)]
    fn read(&self, address: impl Into<usize>) -> u16 {
        self.0[address.into()]
    }

    #[inline(always)]
    fn write(&mut self, address: u16, word: u16) -> Result<(), Down> {
        self.0[usize::from(address)] = word;
        Ok(())
    }

    fn write_run(&mut self, first: u16, words: &[u16]) -> Result<(), Down> {
        self.0[usize::from(first)..][..words.len()].copy_from_slice(words);
        Ok(())
    }
}

/// Word i is the two bytes from byte 2i on, the high one first. Reads are answered from a copy; a write goes to the file first.
pub struct OverFile {
    words: Words,
    file: File,
}

impl OverFile {
    /// A new image, whose zeros are written at once: in a file of holes the system would keep each page apart.
    pub fn create(path: &str) -> std::io::Result<OverFile> {
        let mut file = File::create(path)?;
        file.write_all(&[0; 2 * SIZE as usize])?;
        Ok(OverFile { words: many(0), file })
    }
}

impl Store for OverFile {
    #[inline(always)]
    fn read(&self, address: impl Into<usize>) -> u16 {
        self.words[address.into()]
    }

    #[inline(never)]
    fn write(&mut self, address: u16, word: u16) -> Result<(), Down> {
        let place = 2 * u64::from(address);
        self.file.write_all_at(&word.to_be_bytes(), place).map_err(|_| Down)?;
        self.words[usize::from(address)] = word;
        Ok(())
    }
}

/// Lets a number of writes pass. A write that is refused takes the power.
pub struct Fuse<S> {
    store: S,
    /// How many writes may still pass: none while the store is down, and more than there will ever be while no fuse is armed.
    left: u64,
}

impl<S: Store> Fuse<S> {
    pub fn new(store: S) -> Self {
        Fuse { store, left: u64::MAX }
    }

    pub fn arm(&mut self, writes: u16) {
        self.left = u64::from(writes);
    }
}

impl<S: Store> Store for Fuse<S> {
    #[inline(always)]
    fn read(&self, address: impl Into<usize>) -> u16 {
        self.store.read(address)
    }

    #[inline(always)]
    fn write(&mut self, address: u16, word: u16) -> Result<(), Down> {
        self.left = self.left.checked_sub(1).ok_or(Down)?;
        let written = self.store.write(address, word);
        if written.is_err() {
            self.left = 0;
        }
        written
    }

    /// Where all of them may pass, the store below is asked once.
    fn write_run(&mut self, first: u16, words: &[u16]) -> Result<(), Down> {
        let count = words.len() as u64;
        if self.left < count {
            return words.iter().zip(first..).try_for_each(|(word, address)| self.write(address, *word));
        }
        self.left -= count;
        let written = self.store.write_run(first, words);
        if written.is_err() {
            self.left = 0;
        }
        written
    }
}
