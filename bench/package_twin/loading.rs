//! The commands of a load. The packages whose imports are there are not linked here: no benchmark has such ones.
use crate::components::*;

const SEQUENCE: u16 = 0x6985;

struct Load {
    format: Option<u8>,
    components: Components,
    came: [bool; 256],
    coming: Option<(u8, Vec<u8>)>,
}

/// A card onto which packages are loaded that import what is not there.
#[derive(Default)]
pub struct Card {
    load: Option<Load>,
}

fn told(result: Parsed<()>) -> u16 {
    result.map_or_else(|fault| 0x6400 + fault as u16, |()| 0x9000)
}

impl Card {
    fn component(&mut self, instruction: u8, tag: u8, more: &[u8]) -> u16 {
        let Some(load) = &mut self.load else { return SEQUENCE };
        match (instruction, &mut load.coming) {
            (0xB2, Some(_)) | (0xB4 | 0xBC, None) => SEQUENCE,
            (0xB2, None) if matches!(tag, 0 | 13..=127) => 0x6A80,
            (0xB2, None) if load.came[usize::from(tag)] => told(Err(Fault::Repeated)),
            (0xB2, None) => {
                load.coming = Some((tag, Vec::new()));
                0x9000
            }
            (0xB4, Some((_, bytes))) if bytes.len() + more.len() > 65_538 => told(Err(Fault::Trailing)),
            (0xB4, Some((_, bytes))) => {
                bytes.extend_from_slice(more);
                0x9000
            }
            (_, coming) => {
                let (tag, bytes) = coming.take().expect("a component");
                told(read_component(load.format, tag, &bytes).map(|format| {
                    load.format = format;
                    load.came[usize::from(tag)] = true;
                    if tag < 12 {
                        load.components[usize::from(tag)] = Some(bytes);
                    }
                }))
            }
        }
    }

    fn end(&mut self) -> u16 {
        if self.load.as_ref().is_none_or(|load| load.coming.is_some()) {
            return SEQUENCE;
        }
        let load = self.load.take().expect("a load");
        match read_package(&load.components) {
            Ok(contents) => if contents.imports.count > 0 { 0x6421 } else { 0x6A84 },
            Err(fault) => told(Err(fault)),
        }
    }

    pub fn exchange(&mut self, command: &[u8]) -> u16 {
        match *command {
            [0x80, 0xB0, _, _] => {
                self.load = Some(Load { format: None, components: Default::default(), came: [false; 256], coming: None });
                0x9000
            }
            [0x80, 0xBA, _, _] => self.end(),
            [0x80, instruction @ (0xB2 | 0xBC), tag, _] => self.component(instruction, tag, &[]),
            [0x80, 0xB4, _, _, length, ref more @ ..] if more.len() == length.into() => self.component(0xB4, 0, more),
            _ => 0x6700,
        }
    }
}
