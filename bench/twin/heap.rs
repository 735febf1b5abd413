//! Objects: what their headers say, where their cells lie, and new ones.
use crate::exits::{Exception, Exit};
use crate::journal::{Journal, Refusal};
use crate::layout::{AREA_ENDS, HEAP, TOP};
use crate::store::{many, Down, Store, SIZE};

/// How many words a header has.
pub const HEADER: u16 = 4;
/// How many cells each area of transient ones has.
pub const AREA: usize = 2048;

/// What an object is, as the low byte of its header's first word. Arrays of bytes and of booleans alone have the second bit.
pub const INSTANCE: u16 = 1;
pub const BOOLEANS: u16 = 2;
pub const BYTES: u16 = 3;
pub const SHORTS: u16 = 4;
pub const REFERENCES: u16 = 5;
/// Of these, such a bit more says that two elements stand in a word: those of persistent ones, but for older images.
const PACKED: u16 = 4;

/// What clears the cells of a transient object, as the high byte.
pub const RESET: u16 = 1;
pub const DESELECT: u16 = 2;

#[derive(Clone, Copy)]
pub struct Header {
    first: u16,
    pub class: u16,
    pub owner: u16,
    pub length: u16,
}

impl Header {
    #[inline(always)]
    pub fn is_instance(self) -> bool {
        self.first & 0xFF == INSTANCE
    }

    #[inline(always)]
    pub fn is_transient(self) -> bool {
        self.first > 0xFF
    }

    #[inline(always)]
    pub fn is_cleared_by_deselection(self) -> bool {
        self.first >= DESELECT << 8
    }

    /// Two elements of an array of bytes or booleans stand in a word.
    #[inline(always)]
    fn is_packed(self) -> bool {
        self.first & PACKED != 0
    }

    /// An array of the runtime environment's that all may reach.
    #[inline(always)]
    pub fn is_global(self) -> bool {
        self.owner == 0 && !self.is_instance() && !self.is_cleared_by_deselection()
    }

    /// An array of bytes or booleans.
    #[inline(always)]
    pub fn has_bytes(self) -> bool {
        self.first & BOOLEANS != 0
    }

    #[inline(always)]
    pub fn is_byte_array(self) -> bool {
        self.first & BYTES == BYTES
    }

    #[inline(always)]
    pub fn has_shorts(self) -> bool {
        self.first & 0xFF == SHORTS
    }

    #[inline(always)]
    pub fn has_references(self) -> bool {
        self.first & 0xFF == REFERENCES
    }
}

pub struct Heap<S> {
    pub journal: Journal<S>,
    /// Where objects stand.
    marks: Box<[bool; 65536]>,
    /// The transient cells: first those that a reset clears, then those that a deselection does.
    transient: Box<[u16; 2 * AREA]>,
}

impl<S: Store> Heap<S> {
    pub fn new(store: S) -> Self {
        let mut journal = Journal::new(store);
        journal.store.write(TOP, HEAP).expect("a new store");
        Heap { journal, marks: many(false), transient: many(0) }
    }

    #[inline(always)]
    pub fn word(&self, address: impl Into<usize>) -> u16 {
        self.journal.read(address)
    }

    /// The word of a persistent object's cell.
    #[inline(always)]
    fn cell_word(&self, object: u16, index: u16) -> u16 {
        self.word(usize::from(object) + usize::from(HEADER) + usize::from(index))
    }

    /// What the header of the object that a reference names says. Null throws; a reference to nothing is a code fault.
    #[inline(always)]
    pub fn header(&self, object: u16) -> Result<Header, Exit> {
        if !self.marks[usize::from(object)] {
            return Err(if object == 0 { Exception::NullPointer.into() } else { Exit::Fault });
        }
        Ok(self.header_at(object))
    }

    #[inline(always)]
    fn header_at(&self, object: u16) -> Header {
        Header {
            first: self.word(object),
            class: self.word(usize::from(object) + 1),
            owner: self.word(usize::from(object) + 2),
            length: self.word(usize::from(object) + 3),
        }
    }

    /// The place of a transient object's cell.
    #[inline(always)]
    fn transient_place(&self, object: u16, header: Header, index: u16) -> usize {
        let area = usize::from(header.first >> 8) - 1;
        (AREA * area + usize::from(self.cell_word(object, 0)) + usize::from(index)) % (2 * AREA)
    }

    /// Transient cells of an object from an index on.
    fn transient_run(&mut self, object: u16, header: Header, start: u16, count: usize) -> &mut [u16] {
        let place = self.transient_place(object, header, start);
        &mut self.transient[place..place + count]
    }

    /// A cell, where its object has words of its own for each.
    #[inline(always)]
    pub fn cell(&self, object: u16, header: Header, index: u16) -> u16 {
        if header.is_transient() {
            return self.transient[self.transient_place(object, header, index)];
        }
        self.cell_word(object, index)
    }

    #[inline(always)]
    pub fn set_cell(&mut self, object: u16, header: Header, index: u16, word: u16) -> Result<(), Refusal> {
        if header.is_transient() {
            self.transient[self.transient_place(object, header, index)] = word;
            return Ok(());
        }
        self.journal.set(object + HEADER + index, word)
    }

    /// An element of an array of bytes.
    #[inline(always)]
    pub fn byte(&self, object: u16, header: Header, index: u16) -> u8 {
        if header.is_packed() {
            let [high, low] = self.cell_word(object, index / 2).to_be_bytes();
            return if index % 2 == 0 { high } else { low };
        }
        self.cell(object, header, index) as u8
    }

    #[inline(always)]
    pub fn set_byte(&mut self, object: u16, header: Header, index: u16, byte: u8) -> Result<(), Refusal> {
        if header.is_packed() {
            let address = object + HEADER + index / 2;
            let [high, low] = self.word(address).to_be_bytes();
            let both = if index % 2 == 0 { [byte, low] } else { [high, byte] };
            return self.journal.set(address, u16::from_be_bytes(both));
        }
        self.set_cell(object, header, index, byte.into())
    }

    /// Reads elements of an array of bytes from an index on.
    pub fn bytes(&self, object: u16, header: Header, start: u16, bytes: &mut [u8]) {
        if header.is_transient() {
            let place = self.transient_place(object, header, start);
            let cells = &self.transient[place..place + bytes.len()];
            return bytes.iter_mut().zip(cells).for_each(|(byte, cell)| *byte = *cell as u8);
        }
        if !header.is_packed() {
            let first = object + HEADER + start;
            return bytes.iter_mut().zip(first..).for_each(|(byte, address)| *byte = self.word(address) as u8);
        }
        let mut address = object + HEADER + start / 2;
        let (odd, rest) = bytes.split_at_mut(usize::from(start % 2).min(bytes.len()));
        if let [first] = odd {
            *first = self.word(address) as u8;
            address += 1;
        }
        let mut pairs = rest.chunks_exact_mut(2);
        for pair in &mut pairs {
            pair.copy_from_slice(&self.word(address).to_be_bytes());
            address += 1;
        }
        if let [last] = pairs.into_remainder() {
            *last = (self.word(address) >> 8) as u8;
        }
    }

    /// Sets elements of an array of bytes from an index on, as one change.
    pub fn set_bytes(&mut self, object: u16, header: Header, start: u16, bytes: &[u8]) -> Result<(), Refusal> {
        if header.is_transient() {
            let cells = self.transient_run(object, header, start, bytes.len());
            cells.iter_mut().zip(bytes).for_each(|(cell, byte)| *cell = (*byte).into());
            return Ok(());
        }
        if !header.is_packed() {
            let words: Vec<u16> = bytes.iter().map(|byte| u16::from(*byte)).collect();
            return self.journal.set_run(object + HEADER + start, &words);
        }
        const MOST: usize = 256;
        let first = object + HEADER + start / 2;
        if bytes.len() <= 2 * MOST - 2 {
            let mut words = [0; MOST];
            let count = self.packed(first, start, bytes, &mut words);
            return self.journal.set_run(first, &words[..count]);
        }
        let mut words = vec![0; bytes.len() / 2 + 2];
        let count = self.packed(first, start, bytes, &mut words);
        self.journal.set_run(first, &words[..count])
    }

    /// The words from an address on once bytes stand in them, from an even or an odd index on; and how many they are. The bytes
    /// beside them stay.
    fn packed(&self, first: u16, start: u16, bytes: &[u8], words: &mut [u16]) -> usize {
        let mut count = 0;
        let mut rest = bytes;
        if let (1, [byte, others @ ..]) = (start % 2, bytes) {
            words[0] = self.word(first) & 0xFF00 | u16::from(*byte);
            count = 1;
            rest = others;
        }
        let pairs = rest.chunks_exact(2);
        let last = pairs.remainder();
        for (word, pair) in words[count..].iter_mut().zip(pairs) {
            *word = u16::from_be_bytes([pair[0], pair[1]]);
        }
        count += rest.len() / 2;
        if let [byte] = last {
            words[count] = u16::from(*byte) << 8 | self.word(first + count as u16) & 0xFF;
            count += 1;
        }
        count
    }

    /// Sets all cells of a persistent instance, as one change.
    pub fn set_cells(&mut self, object: u16, cells: &[u16]) -> Result<(), Refusal> {
        self.journal.set_run(object + HEADER, cells)
    }

    /// Clears what a deselection clears.
    pub fn clear_at_deselection(&mut self) {
        self.transient[AREA..].fill(0);
    }

    /// The first cells of a transient object: these bytes, and then zeros.
    pub fn fill(&mut self, object: u16, header: Header, bytes: &[u8], zeros: usize) {
        let cells = self.transient_run(object, header, 0, bytes.len() + zeros);
        cells[..bytes.len()].iter_mut().zip(bytes).for_each(|(cell, byte)| *cell = (*byte).into());
        cells[bytes.len()..].fill(0);
    }

    /// The bytes that transient cells hold.
    pub fn transient_bytes(&self, object: u16, header: Header, start: u16, count: u16) -> impl Iterator<Item = u8> + '_ {
        let place = self.transient_place(object, header, start);
        self.transient[place..place + usize::from(count)].iter().map(|cell| *cell as u8)
    }

    /// Makes a persistent object of zeros.
    pub fn make(&mut self, kind: u16, class: u16, owner: u16, length: u16) -> Result<u16, Exit> {
        let is_packed = kind == BOOLEANS || kind == BYTES;
        let first = if is_packed { kind + PACKED } else { kind };
        let words = if is_packed { length.div_ceil(2) } else { length };
        let object = self.word(TOP);
        let end = u32::from(object) + u32::from(HEADER) + u32::from(words);
        if end > SIZE.into() {
            return Err(Exception::NoResource.into());
        }
        if self.journal.needs_more_than_there_is(&[TOP]) {
            return Err(Exception::BufferFull.into());
        }
        let store = &mut self.journal.store;
        store.write_run(object, &[first, class, owner, length])?;
        for address in object + HEADER..end as u16 {
            store.write(address, 0)?;
        }
        self.journal.set(TOP, end as u16)?;
        self.marks[usize::from(object)] = true;
        Ok(object)
    }

    /// Makes a transient object of zeros.
    pub fn make_transient(&mut self, kind: u16, event: u16, class: u16, owner: u16, length: u16) -> Result<u16, Exit> {
        let end_word = AREA_ENDS + event - 1;
        let place = self.word(end_word);
        let area_end = usize::from(place) + usize::from(length);
        if area_end > AREA {
            return Err(Exception::NoTransientSpace.into());
        }
        let object = self.word(TOP);
        let end = u32::from(object) + u32::from(HEADER) + 1;
        if end > SIZE.into() {
            return Err(Exception::NoResource.into());
        }
        if self.journal.needs_more_than_there_is(&[TOP, end_word]) {
            return Err(Exception::BufferFull.into());
        }
        self.journal.store.write_run(object, &[kind + 256 * event, class, owner, length, place])?;
        self.journal.set_all(&[(TOP, end as u16), (end_word, area_end as u16)])?;
        self.marks[usize::from(object)] = true;
        let header = self.header_at(object);
        self.transient_run(object, header, 0, length.into()).fill(0);
        Ok(object)
    }

    /// Takes the transaction back, and the objects that were made in it.
    pub fn abort(&mut self) -> Result<(), Down> {
        let before = self.word(TOP);
        self.journal.abort()?;
        let top = self.word(TOP);
        self.marks[usize::from(top)..before.into()].fill(false);
        Ok(())
    }
}
