//! Instructions on fields, arrays and objects.
use crate::exits::{Exception, Exit};
use crate::firewall::Access;
use crate::frames::Cell;
use crate::heap::{Header, BOOLEANS, BYTES, INSTANCE, REFERENCES, SHORTS};
use crate::machine::Machine;
use crate::memory::Memory;
use crate::packages::{Holds, Packages, Target};
use crate::platform;
use crate::store::Store;

/// What a field holds.
#[derive(Clone, Copy, PartialEq)]
pub enum Kind {
    Reference,
    Byte,
    Short,
}

impl Kind {
    /// Whether it is an array of these.
    #[inline(always)]
    fn is_of_elements(self, header: Header) -> bool {
        match self {
            Kind::Reference => header.has_references(),
            Kind::Byte => header.has_bytes(),
            Kind::Short => header.has_shorts(),
        }
    }

    /// The cell of a word; a byte has its sign.
    #[inline(always)]
    fn cell(self, word: u16) -> Cell {
        match self {
            Kind::Reference => Cell::Reference(word),
            Kind::Byte => Cell::Short((word as i8).into()),
            Kind::Short => Cell::Short(word as i16),
        }
    }
}

impl<S: Store> Memory<S> {
    /// The array that a reference names, of such elements or of any, as the code that runs may reach it.
    #[inline(always)]
    fn array(&self, array: u16, of: Option<Kind>, linked: &Packages) -> Result<Header, Exit> {
        let header = self.heap.header(array)?;
        if !of.map_or(!header.is_instance(), |kind| kind.is_of_elements(header)) {
            return Err(Exit::Fault);
        }
        self.allow(Access::Element, array, header, linked)?;
        Ok(header)
    }

    /// The firewall lets a reference be kept: null always.
    fn allow_keeping(&self, reference: u16, linked: &Packages) -> Result<(), Exit> {
        if reference == 0 {
            return Ok(());
        }
        self.allow(Access::Store, reference, self.heap.header(reference)?, linked)
    }

    /// What is kept in an array of references to instances of a class.
    fn allow_element(&self, value: u16, class: u16, linked: &Packages) -> Result<(), Exit> {
        if value == 0 || is_instance(self.heap.header(value)?, class, linked) {
            return Ok(());
        }
        Err(Exception::ArrayStore.into())
    }

    /// Whether an object is of a class or an interface; null as it is said.
    #[inline(never)]
    fn is_of_type(&self, object: u16, class: u16, of_null: bool, linked: &Packages) -> Result<bool, Exit> {
        if object == 0 {
            return Ok(of_null);
        }
        let header = self.heap.header(object)?;
        let is_interface = class == platform::SHAREABLE || linked.class(class).is_some_and(|own| own.is_interface);
        let access = match is_interface {
            false => Access::CastToClass,
            true if linked.is_shareable(class) => Access::CastToShared,
            true => Access::CastToInterface,
        };
        self.allow(access, object, header, linked)?;
        Ok(is_instance(header, class, linked))
    }

    #[inline(never)]
    fn new_array(&mut self, kind: u16, class: u16, length: i16) -> Result<u16, Exit> {
        let length = u16::try_from(length).map_err(|_| Exception::NegativeArraySize)?;
        self.heap.make(kind, class, self.registers.active, length)
    }

    #[inline(never)]
    fn new_instance(&mut self, class: u16, linked: &Packages) -> Result<u16, Exit> {
        match linked.class(class) {
            Some(own) if !own.is_interface => self.heap.make(INSTANCE, class, self.registers.active, own.cells),
            _ => Err(Exit::Fault),
        }
    }
}

fn is_instance(header: Header, class: u16, linked: &Packages) -> bool {
    if header.is_instance() {
        linked.is_below(header.class, class)
    } else {
        class == platform::OBJECT
    }
}

/// The index of an element. As a number without a sign a negative one is greater than any length.
#[inline(always)]
fn within(header: Header, index: i16) -> Result<u16, Exit> {
    if index as u16 >= header.length {
        Err(Exception::ArrayIndexOutOfBounds.into())
    } else {
        Ok(index as u16)
    }
}

impl<S: Store> Machine<'_, S> {
    #[inline(always)]
    pub fn load_element(&mut self, kind: Kind) -> Result<(), Exit> {
        let index = self.stack.pop_short()?;
        let array = self.stack.pop_reference()?;
        let header = self.memory.array(array, Some(kind), self.linked)?;
        let index = within(header, index)?;
        let heap = &self.memory.heap;
        self.stack.put(match kind {
            Kind::Byte => Cell::Short((heap.byte(array, header, index) as i8).into()),
            _ => kind.cell(heap.cell(array, header, index)),
        });
        Ok(())
    }

    #[inline(always)]
    pub fn store_element(&mut self, kind: Kind) -> Result<(), Exit> {
        let value = self.value(kind)?;
        let index = self.stack.pop_short()?;
        let array = self.stack.pop_reference()?;
        let header = self.memory.array(array, Some(kind), self.linked)?;
        if kind == Kind::Reference {
            self.memory.allow_keeping(value, self.linked)?;
        }
        let index = within(header, index)?;
        if kind == Kind::Reference {
            self.memory.allow_element(value, header.class, self.linked)?;
        }
        let heap = &mut self.memory.heap;
        match kind {
            Kind::Byte => heap.set_byte(array, header, index, value as u8)?,
            _ => heap.set_cell(array, header, index, value)?,
        }
        Ok(())
    }

    #[inline(always)]
    pub fn array_length(&mut self) -> Result<(), Exit> {
        let array = self.stack.pop_reference()?;
        let header = self.memory.array(array, None, self.linked)?;
        self.stack.put(Cell::Short(header.length as i16));
        Ok(())
    }

    /// Code that comes with a command makes no arrays.
    #[inline(always)]
    pub fn make_array(&mut self) -> Result<(), Exit> {
        let number = self.u1()?;
        let kind = match number {
            _ if self.stack.frame.package == 0 => return Err(Exit::Fault),
            10 => BOOLEANS,
            11 => BYTES,
            12 => SHORTS,
            _ => return Err(Exit::Fault),
        };
        let length = self.stack.pop_short()?;
        let array = self.memory.new_array(kind, 0, length)?;
        self.stack.put(Cell::Reference(array));
        Ok(())
    }

    #[inline(always)]
    pub fn make_array_of_references(&mut self) -> Result<(), Exit> {
        let index = self.u2()?;
        let length = self.stack.pop_short()?;
        let Target::Class(class) = *self.target(index)? else {
            return Err(Exit::Fault);
        };
        let array = self.memory.new_array(REFERENCES, class, length)?;
        self.stack.put(Cell::Reference(array));
        Ok(())
    }

    #[inline(always)]
    pub fn make_instance(&mut self) -> Result<(), Exit> {
        let index = self.u2()?;
        let Target::Class(class) = *self.target(index)? else {
            return Err(Exit::Fault);
        };
        let object = self.memory.new_instance(class, self.linked)?;
        self.stack.push(Cell::Reference(object))
    }

    /// The value on top as a word.
    #[inline(always)]
    fn value(&mut self, kind: Kind) -> Result<u16, Exit> {
        match kind {
            Kind::Reference => self.stack.pop_reference(),
            Kind::Byte => Ok(self.stack.pop_short()? as u16 & 0xFF),
            Kind::Short => Ok(self.stack.pop_short()? as u16),
        }
    }

    /// The cell of the field that an entry names, in an object that the code which runs may reach.
    #[inline(always)]
    fn field(&self, kind: Kind, index: u16, object: u16) -> Result<(Header, u16), Exit> {
        let Target::Field { class, cell, is_reference } = *self.target(index)? else {
            return Err(Exit::Fault);
        };
        if is_reference != (kind == Kind::Reference) {
            return Err(Exit::Fault);
        }
        let header = self.memory.heap.header(object)?;
        if !header.is_instance() || !self.linked.is_below(header.class, class) || cell >= header.length {
            return Err(Exit::Fault);
        }
        self.memory.allow(Access::Field, object, header, self.linked)?;
        Ok((header, cell))
    }

    #[inline(always)]
    pub fn get_field(&mut self, kind: Kind, index: impl Fn(&mut Self) -> Result<u16, Exit>) -> Result<(), Exit> {
        let index = index(self)?;
        let object = self.stack.pop_reference()?;
        let (header, cell) = self.field(kind, index, object)?;
        self.stack.put(kind.cell(self.memory.heap.cell(object, header, cell)));
        Ok(())
    }

    #[inline(always)]
    pub fn get_field_of_this(&mut self, kind: Kind) -> Result<(), Exit> {
        let index = self.u1()?;
        let object = self.stack.local_reference(0)?;
        let (header, cell) = self.field(kind, index.into(), object)?;
        self.stack.push(kind.cell(self.memory.heap.cell(object, header, cell)))
    }

    #[inline(always)]
    pub fn put_field(&mut self, kind: Kind, index: impl Fn(&mut Self) -> Result<u16, Exit>) -> Result<(), Exit> {
        let index = index(self)?;
        let value = self.value(kind)?;
        let object = self.stack.pop_reference()?;
        self.set_field(kind, index, object, value)
    }

    #[inline(always)]
    pub fn put_field_of_this(&mut self, kind: Kind) -> Result<(), Exit> {
        let index = self.u1()?;
        let value = self.value(kind)?;
        let object = self.stack.local_reference(0)?;
        self.set_field(kind, index.into(), object, value)
    }

    #[inline(always)]
    fn set_field(&mut self, kind: Kind, index: u16, object: u16, value: u16) -> Result<(), Exit> {
        let (header, cell) = self.field(kind, index, object)?;
        if kind == Kind::Reference {
            self.memory.allow_keeping(value, self.linked)?;
        }
        Ok(self.memory.heap.set_cell(object, header, cell, value)?)
    }

    /// The word and the half of a static field that an entry names.
    #[inline(always)]
    fn static_field(&mut self, kind: Kind) -> Result<(u16, bool), Exit> {
        let index = self.u2()?;
        let Target::StaticField { word, is_odd, holds } = *self.target(index)? else {
            return Err(Exit::Fault);
        };
        let fits = match kind {
            Kind::Reference => holds == Holds::Reference,
            Kind::Byte => holds != Holds::Reference,
            Kind::Short => holds == Holds::Number,
        };
        if fits {
            Ok((word, is_odd))
        } else {
            Err(Exit::Fault)
        }
    }

    #[inline(always)]
    pub fn get_static(&mut self, kind: Kind) -> Result<(), Exit> {
        let (address, is_odd) = self.static_field(kind)?;
        let word = self.memory.heap.word(address);
        let value = match (kind, is_odd) {
            (Kind::Byte, false) => word >> 8,
            (Kind::Byte, true) | (_, false) => word,
            (_, true) => word << 8 | self.memory.heap.word(address + 1) >> 8,
        };
        self.stack.push(kind.cell(value))
    }

    #[inline(always)]
    pub fn put_static(&mut self, kind: Kind) -> Result<(), Exit> {
        let (address, is_odd) = self.static_field(kind)?;
        let value = self.value(kind)?;
        if kind == Kind::Reference {
            self.memory.allow_keeping(value, self.linked)?;
        }
        let heap = &mut self.memory.heap;
        let word = heap.word(address);
        match (kind, is_odd) {
            (Kind::Byte, false) => heap.journal.set(address, value << 8 | word & 0xFF)?,
            (Kind::Byte, true) => heap.journal.set(address, word & 0xFF00 | value)?,
            (_, false) => heap.journal.set(address, value)?,
            (_, true) => {
                let next = value << 8 | heap.word(address + 1) & 0xFF;
                heap.journal.set_run(address, &[word & 0xFF00 | value >> 8, next])?;
            }
        }
        Ok(())
    }

    #[inline(always)]
    pub fn check_cast(&mut self) -> Result<(), Exit> {
        let (object, is_such) = self.test_type(true)?;
        if !is_such {
            return Err(Exception::ClassCast.into());
        }
        self.stack.put(Cell::Reference(object));
        Ok(())
    }

    #[inline(always)]
    pub fn instance_of(&mut self) -> Result<(), Exit> {
        let (_, is_such) = self.test_type(false)?;
        self.stack.put(Cell::Short(is_such.into()));
        Ok(())
    }

    /// The object on top, and whether it is of the class or interface that the entry names.
    #[inline(always)]
    fn test_type(&mut self, of_null: bool) -> Result<(u16, bool), Exit> {
        let (array, index) = (self.u1()?, self.u2()?);
        let object = self.stack.pop_reference()?;
        match *self.target(index)? {
            Target::Class(class) if array == 0 => Ok((object, self.memory.is_of_type(object, class, of_null, self.linked)?)),
            _ => Err(Exit::Fault),
        }
    }
}
