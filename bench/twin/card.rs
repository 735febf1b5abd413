//! The card: how it answers a command.
use crate::frames::{Cell, Frames};
use crate::linker::Components;
use crate::machine::{run, Outcome};
use crate::memory::{Memory, Phase};
use crate::packages::{Code, Method, Packages};
use crate::platform;
use crate::store::{Down, Store};

/// How many instructions a command may carry out.
pub const BUDGET: u32 = 100_000;
/// The AID by which the manager is selected.
const MANAGER: &[u8] = &[0xF0, 0x4A, 0x43, 0x4D, 0x47, 0x52];

// Status words.
pub const NO_ERROR: u16 = 0x9000;
pub const WRONG_LENGTH: u16 = 0x6700;
pub const UNKNOWN: u16 = 0x6F00;
const NOT_SELECTED: u16 = 0x6999;
const CLA_NOT_SUPPORTED: u16 = 0x6E00;

/// A command in its short form; its data have at most 255 bytes.
pub struct Command<'a> {
    pub bytes: &'a [u8],
    pub data: &'a [u8],
}

impl<'a> Command<'a> {
    /// None where the length is wrong.
    fn parse(bytes: &'a [u8]) -> Option<Self> {
        let data = match bytes.len() {
            0..=3 => return None,
            4 | 5 => &[],
            length => {
                let count = usize::from(bytes[4]);
                if count == 0 || length != 5 + count && length != 6 + count {
                    return None;
                }
                &bytes[5..5 + count]
            }
        };
        Some(Command { bytes, data })
    }

    /// SELECT by an AID.
    fn is_select(&self) -> bool {
        self.bytes[..4] == [0, 0xA4, 4, 0] && !self.data.is_empty()
    }

    /// How many bytes it expects.
    fn expected(&self) -> u16 {
        match self.bytes {
            [_, _, _, _, expected] => u16::from(*expected),
            [_, _, _, _, count, .., expected] if self.bytes.len() == 6 + usize::from(*count) => u16::from(*expected),
            _ => 0,
        }
    }
}

pub struct Card<S> {
    pub memory: Memory<S>,
    pub linked: Packages,
    pub frames: Frames,
    /// The components of the open load, and the bytes of the open one.
    pub components: Components,
    pub tag: u8,
    pub component: Vec<u8>,
}

impl<S: Store> Card<S> {
    pub fn new(store: S) -> Self {
        Card {
            memory: Memory::new(store),
            linked: Packages::default(),
            frames: Frames::new(),
            components: Components::default(),
            tag: 0,
            component: Vec::new(),
        }
    }

    /// Carries a command out. The answer is the status word, before which stand the bytes that were sent.
    pub fn exchange(&mut self, bytes: &[u8]) -> Result<u16, Down> {
        self.memory.sent.clear();
        let Some(command) = Command::parse(bytes) else { return Ok(WRONG_LENGTH) };
        if command.is_select() || self.memory.registers.selected != 0 {
            self.memory.command.clear();
            self.memory.command.extend_from_slice(bytes);
            return self.route(&command);
        }
        if bytes[0] != 0x80 {
            Ok(CLA_NOT_SUPPORTED)
        } else {
            self.manage(&command)
        }
    }

    /// SELECT of the manager or of an applet; another command goes to the selected applet.
    fn route(&mut self, command: &Command) -> Result<u16, Down> {
        if command.is_select() {
            if command.data == MANAGER {
                let mut budget = BUDGET;
                self.leave(0, &mut budget)?;
                self.memory.registers.selected = 0;
                return Ok(NO_ERROR);
            }
            if let Some(applet) = self.memory.applet_with_aid(command.data) {
                return self.select(applet, command);
            }
        }
        match self.memory.registers.selected {
            0 => Ok(NOT_SELECTED),
            applet => {
                let mut budget = BUDGET;
                self.process(applet, false, command, &mut budget)
            }
        }
    }

    /// The selected applet is left for the next one, or for the manager.
    fn leave(&mut self, next: u16, budget: &mut u32) -> Result<(), Down> {
        let applet = self.memory.registers.selected;
        self.memory.registers.is_reselecting = next != 0 && next == applet;
        if applet != 0 {
            let instance = self.memory.instance(applet);
            self.call_applet(platform::DESELECT, instance, &[Cell::Reference(instance)], applet, budget)?;
            self.memory.close()?;
        }
        self.memory.heap.clear_at_deselection();
        Ok(())
    }

    fn select(&mut self, applet: u16, command: &Command) -> Result<u16, Down> {
        let mut budget = BUDGET;
        self.leave(applet, &mut budget)?;
        self.memory.registers.selected = applet;
        let instance = self.memory.instance(applet);
        let outcome = self.call_applet(platform::SELECT, instance, &[Cell::Reference(instance)], applet, &mut budget)?;
        self.memory.close()?;
        if let Outcome::Return(Some(Cell::Short(1..=i16::MAX | i16::MIN..=-1))) = outcome {
            return self.process(applet, true, command, &mut budget);
        }
        self.memory.registers.selected = 0;
        Ok(NOT_SELECTED)
    }

    /// An applet answers the command. It may be the one that selected it.
    fn process(&mut self, applet: u16, is_selecting: bool, command: &Command, budget: &mut u32) -> Result<u16, Down> {
        let registers = &mut self.memory.registers;
        registers.is_selecting = is_selecting;
        registers.is_reselecting &= is_selecting;
        registers.expected = command.expected();
        registers.phase = Phase::Waiting;
        self.memory.fill_buffer(&command.bytes[..command.bytes.len().min(5)]);
        let instance = self.memory.instance(applet);
        let arguments = [Cell::Reference(instance), Cell::Reference(self.memory.own.apdu)];
        let outcome = self.call_applet(platform::PROCESS, instance, &arguments, applet, budget)?;
        let status = self.status_of(outcome);
        self.memory.close()?;
        Ok(status)
    }

    /// Calls a method of an applet by its token in the class `Applet`, for an owner.
    fn call_applet(&mut self, token: u8, instance: u16, arguments: &[Cell], owner: u16, budget: &mut u32) -> Result<Outcome, Down> {
        let Ok(header) = self.memory.heap.header(instance) else { return Ok(Outcome::Fault) };
        match self.linked.method(header.class, token) {
            Some(&Method::Code(code)) => self.run_for(code, arguments, owner, budget),
            Some(Method::Native(_)) if token == platform::SELECT => Ok(Outcome::Return(Some(Cell::Short(1)))),
            Some(Method::Native(_)) => Ok(Outcome::Return(None)),
            None => Ok(Outcome::Fault),
        }
    }

    /// Runs a method for an owner, at the runtime environment's call.
    pub fn run_for(&mut self, code: Code, arguments: &[Cell], owner: u16, budget: &mut u32) -> Result<Outcome, Down> {
        let Some(text) = self.linked.text(code.package) else { return Ok(Outcome::Fault) };
        if code.is_abstract || usize::from(code.arguments) != arguments.len() {
            return Ok(Outcome::Fault);
        }
        self.memory.registers.active = owner;
        self.memory.registers.previous = 0;
        let outcome = run(budget, text, code, arguments, &mut self.frames, &mut self.memory, &self.linked)?;
        self.memory.registers.active = 0;
        self.memory.registers.previous = 0;
        Ok(outcome)
    }

    /// What a method that hands nothing over is answered by.
    pub fn status_of(&self, outcome: Outcome) -> u16 {
        match outcome {
            Outcome::Return(None) => NO_ERROR,
            Outcome::Thrown(object) => self.reason_of(object).unwrap_or(UNKNOWN),
            Outcome::Return(Some(_)) | Outcome::Fault => UNKNOWN,
        }
    }

    /// The reason of an `ISOException`.
    fn reason_of(&self, object: u16) -> Option<u16> {
        let header = self.memory.heap.header(object).ok()?;
        let is_such = header.is_instance() && self.linked.is_below(header.class, platform::ISO_EXCEPTION) && header.length > 0;
        is_such.then(|| self.memory.heap.cell(object, header, 0))
    }
}
