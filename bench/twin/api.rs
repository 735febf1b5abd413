//! The platform's methods that the benchmarks' applets call.
use crate::exits::{Exception, Exit};
use crate::firewall::Access;
use crate::frames::Cell::{self, Reference, Short};
use crate::heap::{Header, BYTES, DESELECT, HEADER, INSTANCE, RESET};
use crate::layout::{APPLETS, MOST_APPLETS, REGISTRY, TOP};
use crate::memory::{Installation, Memory, Phase, MOST_COMMAND};
use crate::packages::Packages;
use crate::platform::AID;
use crate::store::{Store, SIZE};

#[derive(Clone, Copy, PartialEq)]
pub enum Native {
    Init,
    Deselect,
    Select,
    Register,
    SelectingApplet,
    GetBuffer,
    SetOutgoingAndSend,
    BeginTransaction,
    CommitTransaction,
    MakeTransientByteArray,
    ArrayCopy,
    GetShort,
    SetShort,
    ThrowIt,
}

impl Native {
    /// How many cells its arguments have, the receiver among them.
    #[inline(always)]
    pub fn arguments(self) -> u8 {
        match self {
            Native::BeginTransaction | Native::CommitTransaction => 0,
            Native::Init | Native::Deselect | Native::Select | Native::Register | Native::SelectingApplet => 1,
            Native::GetBuffer | Native::ThrowIt => 1,
            Native::MakeTransientByteArray | Native::GetShort => 2,
            Native::SetOutgoingAndSend | Native::SetShort => 3,
            Native::ArrayCopy => 5,
        }
    }

    /// Whether the arguments after the receiver are of the kinds that a method with a receiver wants.
    #[inline(always)]
    pub fn fits(self, arguments: &[Cell]) -> bool {
        match self {
            Native::SetOutgoingAndSend => matches!(arguments, [_, Short(_), Short(_)]),
            _ => true,
        }
    }

    #[inline(always)]
    pub fn is_constructor(self) -> bool {
        self == Native::Init
    }

    /// Carries it out with these arguments, for its caller.
    #[inline(always)]
    pub fn call<S: Store>(self, arguments: &[Cell], memory: &mut Memory<S>, linked: &Packages) -> Result<Option<Cell>, Exit> {
        match (self, arguments) {
            (Native::Init | Native::Deselect, _) => Ok(None),
            (Native::Select, _) => Ok(Some(Short(1))),
            (Native::Register, [Reference(instance)]) => register(*instance, memory, linked).map(|()| None),
            (Native::SelectingApplet, _) => Ok(Some(Short(memory.registers.is_selecting.into()))),
            (Native::GetBuffer, _) => Ok(Some(Reference(buffer(memory)?.0))),
            (Native::SetOutgoingAndSend, [_, Short(start), Short(count)]) => set_outgoing_and_send(*start, *count, memory).map(|()| None),
            (Native::BeginTransaction, _) => begin(memory).map(|()| None),
            (Native::CommitTransaction, _) => commit(memory).map(|()| None),
            (Native::MakeTransientByteArray, [Short(count), Short(event)]) => make_transient(*count, *event, memory),
            (Native::ArrayCopy, [Reference(from), Short(i), Reference(to), Short(j), Short(count)]) => {
                copy((*from, *i), (*to, *j), *count, memory, linked)
            }
            (Native::GetShort, [Reference(array), Short(index)]) => {
                let stretch = stretch(*array, *index, 2, memory, linked)?;
                let high = memory.heap.byte(*array, stretch.header, stretch.start);
                let low = memory.heap.byte(*array, stretch.header, stretch.start + 1);
                Ok(Some(Short(i16::from_be_bytes([high, low]))))
            }
            (Native::SetShort, [Reference(array), Short(index), Short(value)]) => {
                let stretch = stretch(*array, *index, 2, memory, linked)?;
                memory.heap.set_bytes(*array, stretch.header, stretch.start, &value.to_be_bytes())?;
                Ok(Some(Short(index.wrapping_add(2))))
            }
            (Native::ThrowIt, [Short(reason)]) => Err(memory.throw_iso(*reason)),
            _ => Err(Exit::Fault),
        }
    }
}

/// Elements of an array of bytes, from one on.
struct Stretch {
    header: Header,
    start: u16,
}

/// An argument is an array of bytes, or null.
#[inline(always)]
fn array_of_bytes<S: Store>(array: u16, memory: &Memory<S>) -> Result<Option<Header>, Exit> {
    if array == 0 {
        return Ok(None);
    }
    let header = memory.heap.header(array)?;
    if header.is_byte_array() {
        Ok(Some(header))
    } else {
        Err(Exit::Fault)
    }
}

/// Null throws, then the firewall, then elements outside the array.
#[inline(always)]
fn elements<S: Store>(
    array: u16,
    header: Option<Header>,
    start: i16,
    count: i16,
    memory: &Memory<S>,
    linked: &Packages,
) -> Result<Stretch, Exit> {
    let header = header.ok_or(Exception::NullPointer)?;
    memory.allow(Access::Element, array, header, linked)?;
    if start < 0 || count < 0 || start as u32 + count as u32 > header.length.into() {
        return Err(Exception::ArrayIndexOutOfBounds.into());
    }
    Ok(Stretch { header, start: start as u16 })
}

#[inline(always)]
fn stretch<S: Store>(array: u16, start: i16, count: i16, memory: &Memory<S>, linked: &Packages) -> Result<Stretch, Exit> {
    elements(array, array_of_bytes(array, memory)?, start, count, memory, linked)
}

/// Copies as if through a copy, as one change; the index after the last byte written.
#[inline(never)]
fn copy<S: Store>(
    (from, i): (u16, i16),
    (to, j): (u16, i16),
    count: i16,
    memory: &mut Memory<S>,
    linked: &Packages,
) -> Result<Option<Cell>, Exit> {
    let (source, target) = (array_of_bytes(from, memory)?, array_of_bytes(to, memory)?);
    let source = elements(from, source, i, count, memory, linked)?;
    let target = elements(to, target, j, count, memory, linked)?;
    const MOST: usize = MOST_COMMAND as usize;
    let (mut few, mut many) = ([0; MOST], Vec::new());
    let length = count as usize;
    let bytes = if length <= MOST {
        &mut few[..length]
    } else {
        many.resize(length, 0);
        &mut many[..]
    };
    memory.heap.bytes(from, source.header, source.start, bytes);
    memory.heap.set_bytes(to, target.header, target.start, bytes)?;
    Ok(Some(Short(j.wrapping_add(count))))
}

/// The APDU buffer; a heap without one is a code fault.
#[inline(always)]
fn buffer<S: Store>(memory: &Memory<S>) -> Result<(u16, Header), Exit> {
    let buffer = memory.own.buffer;
    let header = memory.heap.header(buffer)?;
    if header.is_byte_array() && header.length == MOST_COMMAND {
        Ok((buffer, header))
    } else {
        Err(Exit::Fault)
    }
}

/// `setOutgoing`, `setOutgoingLength` and `sendBytes` in a row: what passed before one of them throws stays.
#[inline(never)]
fn set_outgoing_and_send<S: Store>(start: i16, count: i16, memory: &mut Memory<S>) -> Result<(), Exit> {
    if memory.registers.phase != Phase::Waiting {
        return Err(Exception::IllegalUse.into());
    }
    memory.registers.phase = Phase::Outgoing;
    if !(0..=256).contains(&count) {
        return Err(Exception::BadLength.into());
    }
    let count = count as u16;
    memory.registers.phase = Phase::Sending(count);
    if memory.sent.len() + usize::from(count) > 256 {
        return Err(Exception::IllegalUse.into());
    }
    if start < 0 || start as u16 + count > MOST_COMMAND {
        return Err(Exception::BufferBounds.into());
    }
    let (buffer, header) = buffer(memory)?;
    let Memory { heap, sent, .. } = memory;
    sent.extend(heap.transient_bytes(buffer, header, start as u16, count));
    memory.registers.phase = Phase::Sending(0);
    Ok(())
}

#[inline(always)]
fn begin<S: Store>(memory: &mut Memory<S>) -> Result<(), Exit> {
    if memory.registers.is_inside {
        return Err(Exception::InProgress.into());
    }
    if !memory.heap.journal.is_open {
        memory.heap.journal.begin();
    }
    memory.registers.is_inside = true;
    Ok(())
}

/// That of an installation stays open.
#[inline(always)]
fn commit<S: Store>(memory: &mut Memory<S>) -> Result<(), Exit> {
    if !memory.registers.is_inside {
        return Err(Exception::NotInProgress.into());
    }
    let is_installing = matches!(memory.registers.installation, Installation::Open { .. });
    if !is_installing && memory.heap.journal.is_open {
        memory.heap.journal.commit()?;
    }
    memory.registers.is_inside = false;
    Ok(())
}

#[inline(never)]
fn make_transient<S: Store>(count: i16, event: i16, memory: &mut Memory<S>) -> Result<Option<Cell>, Exit> {
    let length = u16::try_from(count).map_err(|_| Exception::NegativeArraySize)?;
    let event = event as u16;
    if event != RESET && event != DESELECT {
        return Err(Exception::IllegalValue.into());
    }
    if event == DESELECT && !memory.may_be_cleared_at_deselection() {
        return Err(Exception::IllegalTransient.into());
    }
    let owner = memory.registers.active;
    let array = memory.heap.make_transient(BYTES, event, 0, owner, length)?;
    Ok(Some(Reference(array)))
}

/// Registers the instance with the AID of its entry in the Applet component, which ends the transaction of its installation.
#[inline(never)]
fn register<S: Store>(instance: u16, memory: &mut Memory<S>, linked: &Packages) -> Result<(), Exit> {
    let Installation::Open { package, entry } = memory.registers.installation else {
        return Err(Exception::IllegalAid.into());
    };
    let applet = linked.package(package).and_then(|home| home.applets.get(usize::from(entry)));
    let aid = &applet.ok_or(Exception::IllegalAid)?.aid;
    let number = memory.applets() + 1;
    let is_owned = memory.heap.header(instance).is_ok_and(|header| header.owner == number);
    if !memory.heap.journal.is_open || memory.applet_with_aid(aid).is_some() || number > MOST_APPLETS || !is_owned {
        return Err(Exception::IllegalAid.into());
    }
    if memory.registers.is_inside {
        return Err(Exception::InProgress.into());
    }
    let top = memory.heap.word(TOP);
    if u32::from(top) + u32::from(HEADER) + 9 > SIZE.into() {
        return Err(Exception::NoResource.into());
    }
    let place = REGISTRY + 3 * (number - 1);
    if memory.heap.journal.needs_more_than_there_is(&[TOP, place, place + 1, place + 2, APPLETS]) {
        return Err(Exception::BufferFull.into());
    }
    let object = memory.heap.make(INSTANCE, AID, 0, 9)?;
    let mut cells = [0; 9];
    cells[0] = aid.len() as u16;
    for (index, byte) in aid.iter().enumerate() {
        cells[1 + index / 2] |= if index % 2 == 0 { u16::from(*byte) << 8 } else { u16::from(*byte) };
    }
    memory.heap.set_cells(object, &cells)?;
    let entry = [(place, object), (place + 1, package.into()), (place + 2, instance), (APPLETS, number)];
    memory.heap.journal.set_all(&entry)?;
    memory.heap.journal.commit()?;
    memory.registers.installation = Installation::Registered { package };
    Ok(())
}
