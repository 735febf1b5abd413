//! Transactions: the old values of the words that one changes are kept in the image, until it ends.
use crate::layout::{CAPACITY, COUNT, JOURNAL, TOP};
use crate::store::{many, Down, Store};

/// Why words were not changed.
pub enum Refusal {
    /// The transaction cannot keep as many old values.
    Full,
    Down,
}

impl From<Down> for Refusal {
    fn from(_: Down) -> Self {
        Refusal::Down
    }
}

pub struct Journal<S> {
    pub store: S,
    pub is_open: bool,
    /// Where the words begin that are born in the open transaction, which has nothing to keep of them; 0 outside one.
    born: u16,
    /// The number of the transaction.
    number: u32,
    /// The transaction in which a word's old value was kept last.
    kept: Box<[u32; 65536]>,
}

impl<S: Store> Journal<S> {
    pub fn new(store: S) -> Self {
        Journal { store, is_open: false, born: 0, number: 0, kept: many(0) }
    }

    #[inline(always)]
    pub fn read(&self, address: impl Into<usize>) -> u16 {
        self.store.read(address)
    }

    pub fn begin(&mut self) {
        self.is_open = true;
        self.born = self.read(TOP);
        self.number = self.number.wrapping_add(1);
        if self.number == 0 {
            self.kept.fill(0);
            self.number = 1;
        }
    }

    pub fn commit(&mut self) -> Result<(), Down> {
        if self.read(COUNT) != 0 {
            self.store.write(COUNT, 0)?;
        }
        self.close();
        Ok(())
    }

    pub fn abort(&mut self) -> Result<(), Down> {
        for entry in (0..self.read(COUNT)).rev() {
            let slot = JOURNAL + 2 * entry;
            let (address, old) = (self.read(slot), self.read(slot + 1));
            self.store.write(address, old)?;
        }
        self.commit()
    }

    fn close(&mut self) {
        self.is_open = false;
        self.born = 0;
    }

    /// How many more words' old values the transaction can keep.
    pub fn room(&self) -> u16 {
        CAPACITY - self.read(COUNT)
    }

    /// Nothing is to be kept of a word before it is written.
    #[inline(always)]
    fn is_free(&self, address: u16) -> bool {
        address >= self.born || self.kept[usize::from(address)] == self.number
    }

    /// Sets a word as one change.
    #[inline(always)]
    pub fn set(&mut self, address: u16, word: u16) -> Result<(), Refusal> {
        if !self.is_free(address) {
            return self.keep_and_set(address, word);
        }
        self.store.write(address, word)?;
        Ok(())
    }

    fn keep_and_set(&mut self, address: u16, word: u16) -> Result<(), Refusal> {
        let count = self.read(COUNT);
        if count >= CAPACITY {
            return Err(Refusal::Full);
        }
        self.keep(count, address)?;
        self.store.write(COUNT, count + 1)?;
        self.store.write(address, word)?;
        Ok(())
    }

    /// The entry with this number keeps the word.
    #[inline(always)]
    fn keep(&mut self, entry: u16, address: u16) -> Result<(), Down> {
        let slot = JOURNAL + 2 * entry;
        let old = self.read(address);
        self.store.write(slot, address)?;
        self.store.write(slot + 1, old)?;
        self.kept[usize::from(address)] = self.number;
        Ok(())
    }

    /// More old values of these words have to be kept than the transaction can keep.
    pub fn needs_more_than_there_is(&self, addresses: &[u16]) -> bool {
        addresses.iter().filter(|address| !self.is_free(**address)).count() > self.room().into()
    }

    /// Sets words as one change.
    pub fn set_all(&mut self, changes: &[(u16, u16)]) -> Result<(), Refusal> {
        let addresses: Vec<u16> = changes.iter().map(|(address, _)| *address).collect();
        if self.needs_more_than_there_is(&addresses) || changes.len() > CAPACITY.into() {
            return Err(Refusal::Full);
        }
        let before = self.read(COUNT);
        let mut count = before;
        for (address, _) in changes {
            if !self.is_open || !self.is_free(*address) {
                self.keep(count, *address)?;
                count += 1;
            }
        }
        if count != before {
            self.store.write(COUNT, count)?;
        }
        for (address, word) in changes {
            self.store.write(*address, *word)?;
        }
        if !self.is_open {
            self.store.write(COUNT, 0)?;
        }
        Ok(())
    }

    /// Sets the words from an address on as one change.
    pub fn set_run(&mut self, first: u16, words: &[u16]) -> Result<(), Refusal> {
        match words {
            [] => Ok(()),
            [word] => self.set(first, *word),
            _ if self.is_open => self.set_run_inside(first, words),
            _ => self.set_run_outside(first, words),
        }
    }

    fn set_run_inside(&mut self, first: u16, words: &[u16]) -> Result<(), Refusal> {
        let addresses = first..first + words.len() as u16;
        let needed = addresses.clone().filter(|address| !self.is_free(*address)).count();
        if needed > self.room().into() {
            return Err(Refusal::Full);
        }
        if needed > 0 {
            let mut count = self.read(COUNT);
            for address in addresses {
                if !self.is_free(address) {
                    self.keep(count, address)?;
                    count += 1;
                }
            }
            self.store.write(COUNT, count)?;
        }
        self.store.write_run(first, words)?;
        Ok(())
    }

    fn set_run_outside(&mut self, first: u16, words: &[u16]) -> Result<(), Refusal> {
        if words.len() > CAPACITY.into() {
            return Err(Refusal::Full);
        }
        let mut entries = [0; 2 * CAPACITY as usize];
        let entries = &mut entries[..2 * words.len()];
        for (entry, address) in entries.chunks_exact_mut(2).zip(first..) {
            entry.copy_from_slice(&[address, self.read(address)]);
        }
        self.store.write_run(JOURNAL, entries)?;
        self.store.write(COUNT, words.len() as u16)?;
        self.store.write_run(first, words)?;
        self.store.write(COUNT, 0)?;
        Ok(())
    }
}
