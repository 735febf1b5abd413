//! The commands of the manager: running code, loads, and applets that are made.
use crate::card::{Card, Command, BUDGET, NO_ERROR, UNKNOWN, WRONG_LENGTH};
use crate::frames::Cell;
use crate::layout::{MOST_APPLETS, MOST_PACKAGES, TOP};
use crate::linker::{link, size_of_statics, Components};
use crate::machine::{run, Outcome};
use crate::memory::{Installation, Phase};
use crate::packages::{Code, Text};
use crate::store::{Down, Store};

const WRONG_DATA: u16 = 0x6A80;
const NO_APPLET: u16 = 0x6A88;
const FULL: u16 = 0x6432;
const CONDITIONS_NOT_SATISFIED: u16 = 0x6985;
const INS_NOT_SUPPORTED: u16 = 0x6D00;

/// A field after its length, and what follows it.
fn field(bytes: &[u8]) -> Option<(&[u8], &[u8])> {
    let (length, rest) = bytes.split_first()?;
    (rest.len() >= usize::from(*length)).then(|| rest.split_at(usize::from(*length)))
}

fn has_aid_length(aid: &[u8]) -> bool {
    (5..=16).contains(&aid.len())
}

/// The AID of an applet in its package, and the parameters of its `install`: the AID of the instance, or nothing; the control
/// information; and the applet's data.
fn creation(data: &[u8]) -> Option<(&[u8], &[u8])> {
    let (aid, parameters) = field(data)?;
    let (instance, rest) = field(parameters)?;
    let (_, rest) = field(field(rest)?.1)?;
    let is_well_formed = has_aid_length(aid) && (instance.is_empty() || has_aid_length(instance)) && rest.is_empty();
    (is_well_formed && parameters.len() <= 127).then_some((aid, parameters))
}

impl<S: Store> Card<S> {
    pub fn manage(&mut self, command: &Command) -> Result<u16, Down> {
        match command.bytes[1] {
            0x10 => return self.run_code(command),
            0xB0 => self.components = Components::default(),
            0xB2 => {
                self.tag = command.bytes[2] % 16;
                self.component.clear();
            }
            0xB4 => self.component.extend_from_slice(command.data),
            0xBC => {
                // what follows the tag and the size
                let info = self.component.get(3..).unwrap_or(&[]);
                self.components[usize::from(self.tag)] = info.to_vec();
            }
            0xBA => return self.end_load(),
            0xB8 => return self.create(command.data),
            _ => return Ok(INS_NOT_SUPPORTED),
        }
        Ok(NO_ERROR)
    }

    /// Runs the data as code that has no package, with this stack and these locals.
    fn run_code(&mut self, command: &Command) -> Result<u16, Down> {
        if command.data.is_empty() {
            return Ok(WRONG_LENGTH);
        }
        let code = Code { limit: command.bytes[2], locals: command.bytes[3], ..Code::default() };
        let text = Text::lent(command.data);
        let mut budget = BUDGET;
        let outcome = run(&mut budget, text, code, &[], &mut self.frames, &mut self.memory, &self.linked)?;
        self.memory.close()?;
        Ok(match outcome {
            Outcome::Return(Some(Cell::Short(value))) => {
                self.memory.sent.extend(value.to_be_bytes());
                NO_ERROR
            }
            Outcome::Return(None) => NO_ERROR,
            _ => UNKNOWN,
        })
    }

    /// Links what was loaded; its static image follows the heap's objects.
    fn end_load(&mut self) -> Result<u16, Down> {
        let number = self.linked.loaded.len();
        if number >= MOST_PACKAGES {
            return Ok(FULL);
        }
        let top = self.memory.heap.word(TOP);
        let words = size_of_statics(&self.components).div_ceil(2);
        let package = link(&self.components, number as u8 + 1, top, &self.linked);
        self.memory.heap.journal.store.write(TOP, top + words)?;
        self.linked.loaded.push(package);
        Ok(NO_ERROR)
    }

    /// Makes an applet of these data.
    fn create(&mut self, data: &[u8]) -> Result<u16, Down> {
        if data.is_empty() {
            return Ok(WRONG_LENGTH);
        }
        let Some((aid, parameters)) = creation(data) else { return Ok(WRONG_DATA) };
        let named = self.linked.loaded.iter().enumerate().find_map(|(package, loaded)| {
            let entry = loaded.applets.iter().position(|applet| applet.aid == aid)?;
            Some((package as u8 + 1, entry as u8, loaded.applets[entry].install?))
        });
        let Some((package, entry, install)) = named else { return Ok(NO_APPLET) };
        if self.memory.applets() >= MOST_APPLETS {
            return Ok(FULL);
        }
        let owner = self.memory.applets() + 1;
        self.memory.heap.journal.begin();
        self.set_installation(Installation::Open { package, entry });
        self.memory.fill_buffer(parameters);
        let arguments = [Cell::Reference(self.memory.own.buffer), Cell::Short(0), Cell::Short(parameters.len() as i16)];
        let mut budget = BUDGET;
        let outcome = self.run_for(install, &arguments, owner, &mut budget)?;
        let status = match (self.memory.registers.installation, outcome) {
            (Installation::Registered { .. }, _) => NO_ERROR,
            (Installation::Open { .. }, Outcome::Return(None)) => CONDITIONS_NOT_SATISFIED,
            (_, other) => self.status_of(other),
        };
        self.memory.close()?;
        self.memory.heap.clear_at_deselection();
        self.set_installation(Installation::Idle);
        Ok(status)
    }

    fn set_installation(&mut self, installation: Installation) {
        let registers = &mut self.memory.registers;
        registers.installation = installation;
        registers.is_inside = false;
        registers.is_selecting = false;
        registers.is_reselecting = false;
        registers.expected = 0;
        registers.phase = Phase::Waiting;
    }
}
