//! What running code sees and changes: the heap, the registers, and the command.
use crate::exits::{Exception, Exit};
use crate::frames::Cell;
use crate::heap::{Heap, BYTES, INSTANCE, RESET};
use crate::layout::{APPLETS, MOST_APPLETS, REGISTRY};
use crate::platform::{self, APDU};
use crate::store::{Down, Store};

/// How many bytes a command has at most, and the APDU buffer has.
pub const MOST_COMMAND: u16 = 261;

/// Whether an applet is being installed: by which package, and which entry of its Applet component.
#[derive(Clone, Copy, PartialEq)]
pub enum Installation {
    Idle,
    Open { package: u8, entry: u8 },
    Registered { package: u8 },
}

/// How far an APDU has come.
#[derive(Clone, Copy, PartialEq)]
pub enum Phase {
    Waiting,
    Outgoing,
    /// This many bytes are left to be sent.
    Sending(u16),
}

/// Owners are 0, the runtime environment; 1 to 64, an applet; and 256 more than the number of a package.
pub struct Registers {
    /// For whom code runs, and for whom it ran before the last switch.
    pub active: u16,
    pub previous: u16,
    /// The selected applet; 0 where none is.
    pub selected: u16,
    pub is_selecting: bool,
    pub is_reselecting: bool,
    /// The applet has begun a transaction.
    pub is_inside: bool,
    pub installation: Installation,
    /// How many bytes the command expects.
    pub expected: u16,
    pub phase: Phase,
}

/// The runtime environment's own objects.
pub struct Own {
    pub exceptions: [u16; 11],
    pub apdu: u16,
    pub buffer: u16,
}

pub struct Memory<S> {
    pub heap: Heap<S>,
    pub registers: Registers,
    pub own: Own,
    /// The command that is carried out, for the methods of `APDU`.
    pub command: Vec<u8>,
    pub sent: Vec<u8>,
    /// The object that is thrown, and what the first method of a run returned.
    pub thrown: u16,
    pub returned: Option<Cell>,
}

impl<S: Store> Memory<S> {
    /// That of a new image.
    pub fn new(store: S) -> Self {
        let mut heap = Heap::new(store);
        let mut instance = |class, cells| heap.make_transient(INSTANCE, RESET, class, 0, cells).ok().expect("room");
        let exceptions = platform::EXCEPTIONS.map(|(class, cells)| instance(class, cells));
        let apdu = instance(APDU, 0);
        let buffer = heap.make_transient(BYTES, RESET, 0, 0, MOST_COMMAND).ok().expect("room");
        let registers = Registers {
            active: 0,
            previous: 0,
            selected: 0,
            is_selecting: false,
            is_reselecting: false,
            is_inside: false,
            installation: Installation::Idle,
            expected: 0,
            phase: Phase::Waiting,
        };
        let own = Own { exceptions, apdu, buffer };
        let (command, sent) = (Vec::with_capacity(MOST_COMMAND.into()), Vec::with_capacity(256));
        Memory { heap, registers, own, command, sent, thrown: 0, returned: None }
    }

    pub fn applets(&self) -> u16 {
        self.heap.word(APPLETS).min(MOST_APPLETS)
    }

    /// The first word of an applet in the registry, if there is one with this number.
    fn entry(&self, applet: u16) -> Option<u16> {
        (applet != 0 && applet <= self.applets()).then(|| REGISTRY + 3 * (applet - 1))
    }

    /// The instance of an applet; null where no applet has the number.
    pub fn instance(&self, applet: u16) -> u16 {
        self.entry(applet).map_or(0, |entry| self.heap.word(entry + 2))
    }

    /// The number of an applet's package.
    pub fn package_of(&self, applet: u16) -> Option<u8> {
        self.entry(applet).map(|entry| self.heap.word(entry + 1) as u8)
    }

    pub fn applet_with_aid(&self, aid: &[u8]) -> Option<u16> {
        (1..=self.applets()).find(|applet| self.has_aid(*applet, aid))
    }

    fn has_aid(&self, applet: u16, aid: &[u8]) -> bool {
        let Some(entry) = self.entry(applet) else { return false };
        let object = self.heap.word(entry);
        let Ok(header) = self.heap.header(object) else { return false };
        let byte = |index: usize| self.heap.cell(object, header, 1 + index as u16 / 2).to_be_bytes()[index % 2];
        header.length == 9
            && usize::from(self.heap.cell(object, header, 0)) == aid.len()
            && aid.len() <= 16
            && aid.iter().enumerate().all(|(index, own)| *own == byte(index))
    }

    /// The APDU buffer holds these bytes, and zeros after them. Only an array of bytes that a command fits into is one.
    pub fn fill_buffer(&mut self, bytes: &[u8]) {
        let buffer = self.own.buffer;
        let Ok(header) = self.heap.header(buffer) else { return };
        if header.is_byte_array() && header.is_transient() && header.length >= MOST_COMMAND {
            self.heap.fill(buffer, header, bytes, usize::from(MOST_COMMAND) - bytes.len());
        }
    }

    /// The runtime environment throws its own instance.
    pub fn throw(&mut self, exception: Exception) -> Result<(), Exit> {
        use Exception::*;
        let reason = |first: Exception| Some(exception as u16 - first as u16 + 1);
        match exception {
            Arithmetic | ArrayIndexOutOfBounds | ArrayStore | ClassCast | NegativeArraySize | NullPointer | Security => {
                self.throw_own(exception as usize, None)
            }
            IllegalValue | NoTransientSpace | IllegalTransient | IllegalAid | NoResource => self.throw_own(8, reason(IllegalValue)),
            InProgress | NotInProgress | BufferFull => self.throw_own(9, reason(InProgress)),
            IllegalUse | BufferBounds | BadLength => self.throw_own(10, reason(IllegalUse)),
        }
    }

    /// `ISOException.throwIt`.
    pub fn throw_iso(&mut self, reason: i16) -> Exit {
        match self.throw_own(7, Some(reason as u16)) {
            Ok(()) => Exit::ThrowObject,
            Err(exit) => exit,
        }
    }

    #[inline(always)]
    fn throw_own(&mut self, number: usize, reason: Option<u16>) -> Result<(), Exit> {
        let object = self.own.exceptions[number];
        if let Some(reason) = reason {
            let header = self.heap.header(object)?;
            if !header.is_instance() || !header.is_transient() || header.length == 0 {
                return Err(Exit::Fault);
            }
            self.heap.set_cell(object, header, 0, reason)?;
        }
        self.thrown = object;
        Ok(())
    }

    /// Ends what code left open: a transaction is taken back.
    pub fn close(&mut self) -> Result<(), Down> {
        if self.heap.journal.is_open {
            self.heap.abort()?;
        }
        self.registers.is_inside = false;
        self.registers.is_selecting = false;
        Ok(())
    }
}
