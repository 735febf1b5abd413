//! Runs of code: each instruction is carried out from its bytes.
use crate::exits::{Exception, Exit};
use crate::frames::{Cell, Frames, Stack};
use crate::memory::Memory;
use crate::objects::Kind::{Byte, Reference, Short};
use crate::packages::{Code, Packages, Target, Text};
use crate::store::{Down, Store};
use std::convert::Infallible;

/// How a run ended.
pub enum Outcome {
    Return(Option<Cell>),
    /// Nothing caught this object.
    Thrown(u16),
    Fault,
}

/// A run. What an instruction needs of it stays in registers, since nothing out of line is given the whole: what stands there gets
/// parts, or takes it and gives it back.
pub struct Machine<'a, S> {
    pub memory: &'a mut Memory<S>,
    pub linked: &'a Packages,
    pub text: Text<'a>,
    pub stack: Stack<'a>,
    /// The next byte.
    pub pc: usize,
    /// Where the instruction began.
    pub start: usize,
}

/// Runs a method that nothing called, with at most this many instructions, of which those that are left stay in the budget. A run
/// that has not ended then is a code fault.
pub fn run<S: Store>(
    budget: &mut u32,
    text: Text,
    code: Code,
    arguments: &[Cell],
    frames: &mut Frames,
    memory: &mut Memory<S>,
    linked: &Packages,
) -> Result<Outcome, Down> {
    let Ok(stack) = frames.begin(code, arguments) else {
        return Ok(Outcome::Fault);
    };
    let pc = code.start.into();
    let mut machine = Machine { memory, linked, text, stack, pc, start: pc };
    let mut left = *budget;
    let exit = loop {
        let exit = match machine.carry_on(&mut left) {
            Ok(never) => match never {},
            Err(exit) => exit,
        };
        if let Err(exit) = machine.catch(exit) {
            break exit;
        }
    };
    *budget = left;
    match exit {
        Exit::Return => Ok(Outcome::Return(memory.returned)),
        Exit::ThrowObject => Ok(Outcome::Thrown(memory.thrown)),
        Exit::Down => Err(Down),
        Exit::Fault | Exit::Throw(_) => Ok(Outcome::Fault),
    }
}

impl<'a, S: Store> Machine<'a, S> {
    #[inline(always)]
    pub fn u1(&mut self) -> Result<u8, Exit> {
        let Some(&byte) = self.text.bytes.get(self.pc) else { return Err(Exit::Fault) };
        self.pc += 1;
        Ok(byte)
    }

    #[inline(always)]
    pub fn u2(&mut self) -> Result<u16, Exit> {
        let word = u2_at(self.text.bytes, self.pc)?;
        self.pc += 2;
        Ok(word)
    }

    #[inline(always)]
    fn s1(&mut self) -> Result<i16, Exit> {
        Ok((self.u1()? as i8).into())
    }

    #[inline(always)]
    fn s2(&mut self) -> Result<i16, Exit> {
        Ok(self.u2()? as i16)
    }

    /// An index of one byte.
    #[inline(always)]
    fn index(&mut self) -> Result<u16, Exit> {
        self.u1().map(u16::from)
    }

    /// What the entry of the pool names.
    #[inline(always)]
    pub fn target(&self, index: u16) -> Result<&'a Target, Exit> {
        self.text.targets.get(usize::from(index)).ok_or(Exit::Fault)
    }

    /// Carries out instructions, until one does not go on to the next.
    #[inline(always)]
    fn carry_on(&mut self, left: &mut u32) -> Result<Infallible, Exit> {
        loop {
            if *left == 0 {
                return Err(Exit::Fault);
            }
            *left -= 1;
            self.start = self.pc;
            let opcode = self.u1()?;
            let stack = &mut self.stack;
            match opcode {
                0x00 => {}
                0x01 => stack.push(Cell::Reference(0))?,
                0x02 | 0x03 | 0x04 | 0x05 | 0x06 | 0x07 | 0x08 => stack.push(Cell::Short(i16::from(opcode) - 3))?,
                0x10 => self.constant(Self::s1)?,
                0x11 => self.constant(Self::s2)?,

                0x15 => self.with_local(Stack::load_reference)?,
                0x16 => self.with_local(Stack::load_short)?,
                0x18 | 0x19 | 0x1A | 0x1B => stack.load_reference(opcode - 0x18)?,
                0x1C | 0x1D | 0x1E | 0x1F => stack.load_short(opcode - 0x1C)?,
                0x28 => self.with_local(Stack::store_reference)?,
                0x29 => self.with_local(Stack::store_short)?,
                0x2B | 0x2C | 0x2D | 0x2E => stack.store_reference(opcode - 0x2B)?,
                0x2F | 0x30 | 0x31 | 0x32 => stack.store_short(opcode - 0x2F)?,
                0x59 => self.increment(Self::s1)?,
                0x96 => self.increment(Self::s2)?,

                0x3B => drop(stack.pop()?),
                0x3C => {
                    stack.pop()?;
                    stack.pop()?;
                }
                0x3D => stack.duplicate()?,
                0x3E => stack.duplicate_below(2, 0)?,
                0x3F => self.duplicate_below()?,
                0x40 => self.swap()?,

                0x41 => stack.compute(|x, y| x.wrapping_add(y))?,
                0x43 => stack.compute(|x, y| x.wrapping_sub(y))?,
                0x45 => stack.compute(|x, y| x.wrapping_mul(y))?,
                0x47 => self.divide(|x, y| x.wrapping_div(y))?,
                0x49 => self.divide(|x, y| x.wrapping_rem(y))?,
                0x4B => stack.compute_one(|x| x.wrapping_neg())?,
                0x4D => stack.compute(|x, y| (i32::from(x) << (y & 31)) as i16)?,
                0x4F => stack.compute(|x, y| (i32::from(x) >> (y & 31)) as i16)?,
                0x51 => stack.compute(|x, y| ((i32::from(x) as u32) >> (y & 31)) as i16)?,
                0x53 => stack.compute(|x, y| x & y)?,
                0x55 => stack.compute(|x, y| x | y)?,
                0x57 => stack.compute(|x, y| x ^ y)?,
                0x5B => stack.compute_one(|x| (x as i8).into())?,

                0x60 => self.if_zero(Self::s1, |x| x == 0)?,
                0x61 => self.if_zero(Self::s1, |x| x != 0)?,
                0x62 => self.if_zero(Self::s1, |x| x < 0)?,
                0x63 => self.if_zero(Self::s1, |x| x >= 0)?,
                0x64 => self.if_zero(Self::s1, |x| x > 0)?,
                0x65 => self.if_zero(Self::s1, |x| x <= 0)?,
                0x66 => self.if_null(Self::s1, true)?,
                0x67 => self.if_null(Self::s1, false)?,
                0x68 => self.if_same(Self::s1, true)?,
                0x69 => self.if_same(Self::s1, false)?,
                0x6A => self.if_shorts(Self::s1, |x, y| x == y)?,
                0x6B => self.if_shorts(Self::s1, |x, y| x != y)?,
                0x6C => self.if_shorts(Self::s1, |x, y| x < y)?,
                0x6D => self.if_shorts(Self::s1, |x, y| x >= y)?,
                0x6E => self.if_shorts(Self::s1, |x, y| x > y)?,
                0x6F => self.if_shorts(Self::s1, |x, y| x <= y)?,
                0x70 => self.goto(Self::s1)?,
                0x71 => self.call_subroutine()?,
                0x72 => self.return_from_subroutine()?,
                0x73 => self.table_switch()?,
                0x75 => self.lookup_switch()?,
                0x98 => self.if_zero(Self::s2, |x| x == 0)?,
                0x99 => self.if_zero(Self::s2, |x| x != 0)?,
                0x9A => self.if_zero(Self::s2, |x| x < 0)?,
                0x9B => self.if_zero(Self::s2, |x| x >= 0)?,
                0x9C => self.if_zero(Self::s2, |x| x > 0)?,
                0x9D => self.if_zero(Self::s2, |x| x <= 0)?,
                0x9E => self.if_null(Self::s2, true)?,
                0x9F => self.if_null(Self::s2, false)?,
                0xA0 => self.if_same(Self::s2, true)?,
                0xA1 => self.if_same(Self::s2, false)?,
                0xA2 => self.if_shorts(Self::s2, |x, y| x == y)?,
                0xA3 => self.if_shorts(Self::s2, |x, y| x != y)?,
                0xA4 => self.if_shorts(Self::s2, |x, y| x < y)?,
                0xA5 => self.if_shorts(Self::s2, |x, y| x >= y)?,
                0xA6 => self.if_shorts(Self::s2, |x, y| x > y)?,
                0xA7 => self.if_shorts(Self::s2, |x, y| x <= y)?,
                0xA8 => self.goto(Self::s2)?,

                0x24 => self.load_element(Reference)?,
                0x25 => self.load_element(Byte)?,
                0x26 => self.load_element(Short)?,
                0x37 => self.store_element(Reference)?,
                0x38 => self.store_element(Byte)?,
                0x39 => self.store_element(Short)?,
                0x90 => self.make_array()?,
                0x91 => self.make_array_of_references()?,
                0x92 => self.array_length()?,

                0x7B => self.get_static(Reference)?,
                0x7C => self.get_static(Byte)?,
                0x7D => self.get_static(Short)?,
                0x7F => self.put_static(Reference)?,
                0x80 => self.put_static(Byte)?,
                0x81 => self.put_static(Short)?,
                0x83 => self.get_field(Reference, Self::index)?,
                0x84 => self.get_field(Byte, Self::index)?,
                0x85 => self.get_field(Short, Self::index)?,
                0x87 => self.put_field(Reference, Self::index)?,
                0x88 => self.put_field(Byte, Self::index)?,
                0x89 => self.put_field(Short, Self::index)?,
                0xA9 => self.get_field(Reference, Self::u2)?,
                0xAA => self.get_field(Byte, Self::u2)?,
                0xAB => self.get_field(Short, Self::u2)?,
                0xB1 => self.put_field(Reference, Self::u2)?,
                0xB2 => self.put_field(Byte, Self::u2)?,
                0xB3 => self.put_field(Short, Self::u2)?,
                0xAD => self.get_field_of_this(Reference)?,
                0xAE => self.get_field_of_this(Byte)?,
                0xAF => self.get_field_of_this(Short)?,
                0xB5 => self.put_field_of_this(Reference)?,
                0xB6 => self.put_field_of_this(Byte)?,
                0xB7 => self.put_field_of_this(Short)?,

                0x8F => self.make_instance()?,
                0x93 => self.throw_object()?,
                0x94 => self.check_cast()?,
                0x95 => self.instance_of()?,

                0x8B => self.call_virtual()?,
                0x8C => self.call_special()?,
                0x8D => self.call_static()?,
                0x8E => self.call_interface()?,
                0x77 => self.return_reference()?,
                0x78 => self.return_short()?,
                0x7A => self.return_with(None)?,
                _ => return Err(Exit::Fault),
            }
        }
    }

    #[inline(always)]
    fn constant(&mut self, operand: impl Fn(&mut Self) -> Result<i16, Exit>) -> Result<(), Exit> {
        let value = operand(self)?;
        self.stack.push(Cell::Short(value))
    }

    #[inline(always)]
    fn with_local(&mut self, instruction: impl Fn(&mut Stack<'a>, u8) -> Result<(), Exit>) -> Result<(), Exit> {
        let number = self.u1()?;
        instruction(&mut self.stack, number)
    }

    #[inline(always)]
    fn increment(&mut self, operand: impl Fn(&mut Self) -> Result<i16, Exit>) -> Result<(), Exit> {
        let number = self.u1()?;
        let by = operand(self)?;
        self.stack.increment(number, by)
    }

    #[inline(always)]
    fn divide(&mut self, by: impl Fn(i16, i16) -> i16) -> Result<(), Exit> {
        let y = self.stack.pop_short()?;
        let x = self.stack.pop_short()?;
        if y == 0 {
            return Err(Exception::Arithmetic.into());
        }
        self.stack.put(Cell::Short(by(x, y)));
        Ok(())
    }

    #[inline(always)]
    fn duplicate_below(&mut self) -> Result<(), Exit> {
        let halves = self.u1()?;
        let (count, depth) = (halves / 16, halves % 16);
        if !(1..=4).contains(&count) || depth != 0 && !(count..=count + 4).contains(&depth) {
            return Err(Exit::Fault);
        }
        self.stack.duplicate_below(count, depth)
    }

    #[inline(always)]
    fn swap(&mut self) -> Result<(), Exit> {
        let halves = self.u1()?;
        let (count, below) = (halves / 16, halves % 16);
        if !(1..=2).contains(&count) || !(1..=2).contains(&below) {
            return Err(Exit::Fault);
        }
        self.stack.swap(count, below)
    }

    /// Goes on at a place of the method, whose header begins it.
    #[inline(always)]
    fn jump_to(&mut self, place: isize) -> Result<(), Exit> {
        if place < self.stack.frame.header as isize || place >= self.text.bytes.len() as isize {
            return Err(Exit::Fault);
        }
        self.pc = place as usize;
        Ok(())
    }

    #[inline(always)]
    fn jump(&mut self, offset: i16) -> Result<(), Exit> {
        self.jump_to(self.start as isize + offset as isize)
    }

    #[inline(always)]
    fn jump_if(&mut self, holds: bool, offset: i16) -> Result<(), Exit> {
        if holds {
            self.jump(offset)
        } else {
            Ok(())
        }
    }

    #[inline(always)]
    fn goto(&mut self, operand: impl Fn(&mut Self) -> Result<i16, Exit>) -> Result<(), Exit> {
        let offset = operand(self)?;
        self.jump(offset)
    }

    #[inline(always)]
    fn if_zero(&mut self, operand: impl Fn(&mut Self) -> Result<i16, Exit>, holds: impl Fn(i16) -> bool) -> Result<(), Exit> {
        let offset = operand(self)?;
        let value = self.stack.pop_short()?;
        self.jump_if(holds(value), offset)
    }

    #[inline(always)]
    fn if_shorts(&mut self, operand: impl Fn(&mut Self) -> Result<i16, Exit>, holds: impl Fn(i16, i16) -> bool) -> Result<(), Exit> {
        let offset = operand(self)?;
        let y = self.stack.pop_short()?;
        let x = self.stack.pop_short()?;
        self.jump_if(holds(x, y), offset)
    }

    #[inline(always)]
    fn if_null(&mut self, operand: impl Fn(&mut Self) -> Result<i16, Exit>, wanted: bool) -> Result<(), Exit> {
        let offset = operand(self)?;
        let reference = self.stack.pop_reference()?;
        self.jump_if((reference == 0) == wanted, offset)
    }

    #[inline(always)]
    fn if_same(&mut self, operand: impl Fn(&mut Self) -> Result<i16, Exit>, wanted: bool) -> Result<(), Exit> {
        let offset = operand(self)?;
        let second = self.stack.pop_reference()?;
        let first = self.stack.pop_reference()?;
        self.jump_if((first == second) == wanted, offset)
    }

    #[inline(always)]
    fn call_subroutine(&mut self) -> Result<(), Exit> {
        let offset = self.s2()?;
        self.stack.push(Cell::ReturnAddress(self.pc as u16))?;
        self.jump(offset)
    }

    #[inline(always)]
    fn return_from_subroutine(&mut self) -> Result<(), Exit> {
        let number = self.u1()?;
        let address = self.stack.local_address(number)?;
        self.jump_to(isize::from(address as i16) & 0xFFFF)
    }

    #[inline(always)]
    fn table_switch(&mut self) -> Result<(), Exit> {
        let (otherwise, low, high) = (self.s2()?, self.s2()?, self.s2()?);
        let offsets = usize::from(high.abs_diff(low)) + 1;
        if high < low || self.pc + 2 * offsets > self.text.bytes.len() {
            return Err(Exit::Fault);
        }
        let key = self.stack.pop_short()?;
        if key < low || high < key {
            return self.jump(otherwise);
        }
        let offset = u2_at(self.text.bytes, self.pc + 2 * usize::from(key.abs_diff(low)))?;
        self.jump(offset as i16)
    }

    #[inline(always)]
    fn lookup_switch(&mut self) -> Result<(), Exit> {
        let otherwise = self.s2()?;
        let count = usize::from(self.u2()?);
        let pairs = self.text.bytes.get(self.pc..self.pc + 4 * count).ok_or(Exit::Fault)?;
        let key = self.stack.pop_short()?.to_be_bytes();
        let found = pairs.chunks_exact(4).find(|pair| pair[..2] == key);
        self.jump(found.map_or(otherwise, |pair| i16::from_be_bytes([pair[2], pair[3]])))
    }

    /// The text of the frame that runs, where its package is another one than before.
    #[inline(always)]
    pub fn change_text(&mut self, before: u16) -> Result<(), Exit> {
        if self.stack.frame.package != before {
            let Some(text) = self.linked.text(self.stack.frame.package) else { return Err(Exit::Fault) };
            self.text = text;
        }
        Ok(())
    }
}

#[inline(always)]
fn u2_at(bytes: &[u8], at: usize) -> Result<u16, Exit> {
    match bytes.get(at..at + 2) {
        Some(&[high, low]) => Ok(u16::from_be_bytes([high, low])),
        _ => Err(Exit::Fault),
    }
}
