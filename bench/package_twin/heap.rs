//! The power up over the words of an image: the recovery, the checks of the heap, and its packages.
use crate::components::{Components, read_package};
use crate::linking::Linked;
use crate::platform::{FACTS, NAMES, Platform, read_table};

const COUNT: usize = 3;
const TOP: usize = 5;
const PACKAGES: usize = 6;
const APPLETS: usize = 7;
const AREAS: [usize; 2] = [8, 9];
const TEXT_LENGTH: usize = 10;
const CAPACITY: usize = 11;
const JOURNAL: usize = 12;
const ENTRIES: usize = 16;
const ADDRESSES: usize = 528;
const REGISTRY: usize = 560;
const TEXT: usize = 752;
const HEADER: usize = 4;
const AREA_CELLS: u16 = 2048;

const MAGIC: u8 = 1;
const VERSION: u8 = 2;
const SIZE: u8 = 3;
const LOG: u8 = 4;
const TABLE: u8 = 5;
const HEAP: u8 = 6;

/// The objects of the runtime environment, by their classes and cells: the last is the APDU buffer.
const FIXED: [(&str, u16); 17] = [
    ("ArithmeticException", 0),
    ("ArrayIndexOutOfBoundsException", 0),
    ("ArrayStoreException", 0),
    ("ClassCastException", 0),
    ("NegativeArraySizeException", 0),
    ("NullPointerException", 0),
    ("SecurityException", 0),
    ("CardException", 1),
    ("CardRuntimeException", 1),
    ("ISOException", 1),
    ("PINException", 1),
    ("SystemException", 1),
    ("TransactionException", 1),
    ("APDUException", 1),
    ("UserException", 1),
    ("APDU", 0),
    ("", 261),
];

/// A card that is up: its packages, the cells of both areas, and where objects begin.
pub struct Card {
    pub linked: Linked,
    pub areas: [Vec<u32>; 2],
    pub marks: Vec<bool>,
}

/// Where a journal's entries begin, how many there can be, and where the heap ends.
struct Journal {
    start: usize,
    capacity: usize,
    limit: usize,
}

/// The journal that the first words tell.
fn journal_of(words: &[u16]) -> Result<Journal, u8> {
    if words[1] == 1 {
        return Ok(Journal { start: ENTRIES, capacity: 256, limit: words.len() });
    }
    let capacity = usize::from(words[CAPACITY]);
    if !(16..=1024).contains(&capacity) {
        return Err(SIZE);
    }
    let (start, limit) = if capacity > 256 { (words.len() - 2 * capacity, words.len() - 2 * capacity) } else { (ENTRIES, words.len()) };
    if usize::from(words[JOURNAL]) == start { Ok(Journal { start, capacity, limit }) } else { Err(SIZE) }
}

/// Takes back what the journal's entries tell, and makes an image of version 1 one of version 2.
fn recover(journal: &Journal, words: &mut [u16]) -> Result<(), u8> {
    let count = usize::from(words[COUNT]);
    if count > journal.capacity {
        return Err(LOG);
    }
    let names_a_word = |at: u16| (5..10).contains(&at) || (ADDRESSES..journal.limit).contains(&usize::from(at));
    if !(0..count).all(|entry| names_a_word(words[journal.start + 2 * entry])) {
        return Err(LOG);
    }
    for entry in (0..count).rev() {
        words[usize::from(words[journal.start + 2 * entry])] = words[journal.start + 2 * entry + 1];
    }
    words[COUNT] = 0;
    if words[1] == 1 {
        (words[CAPACITY], words[JOURNAL], words[1]) = (256, ENTRIES as u16, 2);
    }
    Ok(())
}

fn bytes_of(words: &[u16], count: usize) -> impl Iterator<Item = u8> + '_ {
    words.iter().flat_map(|word| word.to_be_bytes()).take(count)
}

#[derive(Clone, Copy)]
struct Object<'a> {
    kind: u16,
    event: u16,
    class: u16,
    owner: u16,
    length: u16,
    cells: &'a [u16],
}

struct Heap<'a> {
    words: &'a [u16],
    packages: &'a [u16],
    first: usize,
    top: usize,
}

impl<'a> Heap<'a> {
    fn object(&self, at: usize) -> Object<'a> {
        let word = self.words[at];
        let length = self.words[at + 3];
        let cells = match word {
            6 | 7 => length.div_ceil(2),
            _ if word > 255 => 1,
            _ => length,
        };
        Object {
            kind: word % 256,
            event: word / 256,
            class: self.words[at + 1],
            owner: self.words[at + 2],
            length,
            cells: &self.words[at + HEADER..at + HEADER + usize::from(cells)],
        }
    }

    fn size(&self, at: usize) -> Option<usize> {
        let word = self.words[at];
        let size = if self.packages.contains(&(at as u16)) {
            usize::from(word.max(1))
        } else if !(matches!(word, 6 | 7) || (1..6).contains(&(word % 256)) && word / 256 < 3) || self.top - at < HEADER {
            return None;
        } else if word > 255 {
            HEADER + 1
        } else {
            let length = usize::from(self.words[at + 3]);
            HEADER + if matches!(word, 6 | 7) { length.div_ceil(2) } else { length }
        };
        (size <= self.top - at).then_some(size)
    }

    /// The addresses of the objects, where all records fit and the objects fill their areas; where each record begins is marked.
    fn objects(&self, marks: &mut [bool]) -> Option<Vec<usize>> {
        let mut objects = Vec::new();
        let mut named = vec![false; 65536];
        let mut places = [0; 2];
        let mut at = self.first;
        while at < self.top {
            let size = self.size(at)?;
            marks[at] = true;
            if !self.packages.contains(&(at as u16)) {
                let object = self.object(at);
                if object.event != 0 {
                    let place = &mut places[usize::from(object.event) - 1];
                    if object.cells[0] != *place || object.length > AREA_CELLS - *place {
                        return None;
                    }
                    *place += object.length;
                } else if object.kind == 5 {
                    for word in object.cells {
                        if usize::from(*word) >= self.top {
                            return None;
                        }
                        named[usize::from(*word)] = true;
                    }
                }
                objects.push(at);
            }
            at += size;
        }
        let fill = (0..2).all(|area| self.words[AREAS[area]] == places[area]);
        let distinct = self.packages.iter().enumerate().all(|(k, at)| !self.packages[..k].contains(at));
        let stand = self.packages.iter().all(|at| marks[usize::from(*at)] && self.words[usize::from(*at)] >= 2 && !named[usize::from(*at)]);
        let met = (1..self.top).all(|at| !named[at] || marks[at]);
        (fill && distinct && stand && met).then_some(objects)
    }

    fn begins_with_fixed(&self, platform: &Platform, objects: &[usize]) -> bool {
        let mut place = 0;
        objects.len() >= FIXED.len()
            && FIXED.iter().zip(objects).all(|((name, cells), at)| {
                let object = self.object(*at);
                let class = NAMES.classes.iter().position(|class| class.name == name.as_bytes());
                let kind = if class.is_some() { 1 } else { 3 };
                let fits = object.kind == kind
                    && object.event == 1
                    && object.class == class.map_or(0, |class| platform.word(class))
                    && object.owner == 0
                    && object.length == *cells
                    && object.cells[0] == place;
                place += cells;
                fits
            })
    }

    /// The components of the record at an address.
    fn components(&self, at: usize) -> Components {
        let record = &self.words[at..at + usize::from(self.words[at])];
        let mut components = Components::default();
        let mut rest = &record[1..];
        while let [tag, size, info @ ..] = rest {
            if *tag == 0 {
                break;
            }
            let count = size.div_ceil(2).into();
            if info.len() < count {
                break;
            }
            if let Some(slot) = components.get_mut(usize::from(*tag)) {
                let [high, low] = size.to_be_bytes();
                let mut bytes = Vec::with_capacity(3 + usize::from(*size));
                bytes.extend([*tag as u8, high, low]);
                bytes.extend(bytes_of(info, (*size).into()));
                slot.get_or_insert(bytes);
            }
            rest = &info[count..];
        }
        components
    }

    /// Where the static image begins in a record.
    fn statics(&self, at: usize) -> Option<usize> {
        let record = &self.words[at..at + usize::from(self.words[at])];
        let mut place = 1;
        loop {
            match record[place..] {
                [0, ..] => return (place > 1).then_some(place + 1),
                [_, size, ..] => place += 2 + usize::from(size.div_ceil(2)),
                _ => return None,
            }
            if place > record.len() {
                return None;
            }
        }
    }
}

struct Checks<'a> {
    heap: &'a Heap<'a>,
    linked: &'a Linked,
    is_object: &'a [bool],
    applets: u16,
}

impl Checks<'_> {
    fn is_reference(&self, word: u16) -> bool {
        word == 0 || self.is_object[usize::from(word)]
    }

    fn is_owner(&self, owner: u16) -> bool {
        owner <= self.applets || owner > 256 && usize::from(owner - 256) <= self.heap.packages.len()
    }

    fn is_sound(&self, at: usize) -> bool {
        let object = self.heap.object(at);
        let linked = self.linked;
        let fits = match object.kind {
            1 => {
                linked.is_class(object.class)
                    && !linked.is_interface(object.class)
                    && u32::from(object.length) == linked.cells(object.class)
            }
            5 => linked.is_class(object.class),
            _ => true,
        };
        if !fits || !self.is_owner(object.owner) {
            return false;
        }
        if object.kind != 1 || object.event != 0 {
            return true;
        }
        let cell = |place: usize| object.cells.get(place).copied().unwrap_or(0);
        let references = (0..object.length)
            .all(|place| !linked.holds_reference(object.class, place) || self.is_reference(cell(place.into())));
        references
            && (!linked.is_a(object.class, FACTS.aid) || cell(0) <= 16)
            && (!linked.is_a(object.class, FACTS.owner_pin) || cell(3) <= cell(1) && self.has_value(cell(1), cell(4)))
    }

    fn has_value(&self, most: u16, value: u16) -> bool {
        if value == 0 {
            return most == 0;
        }
        if !self.is_object[usize::from(value)] {
            return false;
        }
        let array = self.heap.object(value.into());
        matches!(array.kind, 3 | 7) && array.event == 0 && array.length == most
    }

    fn holds_statics(&self, at: usize, (size, references): (u16, u16)) -> bool {
        let Some(begin) = self.heap.statics(at) else { return false };
        let long = usize::from(self.heap.words[at]);
        begin + usize::from(size.div_ceil(2)) == long
            && self.heap.words[at + begin..at + long].iter().take(references.into()).all(|word| self.is_reference(*word))
    }

    fn aid_of(&self, applet: u16) -> Option<Vec<u8>> {
        let at = self.heap.words[REGISTRY + 3 * usize::from(applet)];
        if !self.is_object[usize::from(at)] {
            return None;
        }
        let object = self.heap.object(at.into());
        let long = *object.cells.first()?;
        let fits = object.kind == 1
            && object.event == 0
            && object.class == self.linked.platform.word(FACTS.aid)
            && (5..=16).contains(&long);
        fits.then(|| bytes_of(&object.cells[1..], long.into()).collect())
    }

    fn are_registered(&self) -> bool {
        let mut aids: Vec<Vec<u8>> = Vec::new();
        for applet in 0..self.applets {
            let entry = REGISTRY + 3 * usize::from(applet);
            let (package, instance) = (self.heap.words[entry + 1], self.heap.words[entry + 2]);
            let Some(aid) = self.aid_of(applet) else { return false };
            let is_applet = self.is_object[usize::from(instance)] && {
                let object = self.heap.object(instance.into());
                object.kind == 1 && self.linked.is_a(object.class, FACTS.applet)
            };
            if package == 0 || usize::from(package) > self.heap.packages.len() || !is_applet || aids.contains(&aid) {
                return false;
            }
            aids.push(aid);
        }
        true
    }
}

/// Powers the card of these words up, or tells by its number why not.
pub fn power_up(words: &mut [u16]) -> Result<Card, u8> {
    if words[0] != 0x4A43 {
        return Err(MAGIC);
    }
    if !matches!(words[1], 1 | 2) {
        return Err(VERSION);
    }
    if words.len() < 4096 || usize::from(words[2]) != words.len() {
        return Err(SIZE);
    }
    let journal = journal_of(words)?;
    recover(&journal, words)?;
    let words = &words[..journal.limit];
    let text_length = usize::from(words[TEXT_LENGTH]);
    let first = TEXT + text_length.div_ceil(2);
    if text_length > 16384 || first > words.len() {
        return Err(TABLE);
    }
    let text: Vec<u8> = bytes_of(&words[TEXT..], text_length).collect();
    let platform = read_table(&text).ok_or(TABLE)?;
    let top = usize::from(words[TOP]);
    let (packages, applets) = (usize::from(words[PACKAGES]), words[APPLETS]);
    if top < first || top > words.len() || packages > 32 || applets > 64 {
        return Err(HEAP);
    }
    let packages = &words[ADDRESSES..ADDRESSES + packages];
    if packages.iter().any(|at| usize::from(*at) >= top) {
        return Err(HEAP);
    }
    let heap = Heap { words, packages, first, top };
    let areas = [vec![0; AREA_CELLS.into()], vec![0; AREA_CELLS.into()]];
    let mut marks = vec![false; 65536];
    let objects = heap.objects(&mut marks).ok_or(HEAP)?;
    if !heap.begins_with_fixed(&platform, &objects) {
        return Err(HEAP);
    }
    for at in packages {
        marks[usize::from(*at)] = false;
    }
    let mut linked = Linked { platform, loaded: Vec::with_capacity(32) };
    for at in packages {
        let components = heap.components((*at).into());
        let contents = read_package(&components).map_err(|_| HEAP)?;
        linked.link(&contents).ok_or(HEAP)?;
    }
    let checks = Checks { heap: &heap, linked: &linked, is_object: &marks, applets };
    let sound = objects[FIXED.len()..].iter().all(|at| checks.is_sound(*at))
        && (packages.iter().zip(&linked.loaded)).all(|(at, package)| checks.holds_statics((*at).into(), package.image))
        && checks.are_registered();
    if sound { Ok(Card { linked, areas, marks }) } else { Err(HEAP) }
}
