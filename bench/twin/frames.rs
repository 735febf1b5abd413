//! Frames: the cells of all of them, and the stack and the locals of the one that runs.
use crate::exits::Exit;
use crate::packages::Code;
use crate::store::many;

#[derive(Clone, Copy)]
pub enum Cell {
    Short(i16),
    Reference(u16),
    ReturnAddress(u16),
}

/// How many cells all frames may have.
pub const MOST_CELLS: u16 = 512;
/// How many frames may wait for the one that runs.
const MOST_CALLERS: usize = 31;

/// A cell for each place that a number can say, so that a place needs no test.
type Cells = [Cell; 65536];

/// Where the cells of a frame lie: its locals from `base` on, its stack from `bottom` on and below `ceiling`.
#[derive(Clone, Copy, Default)]
pub struct Frame {
    pub base: u16,
    pub bottom: u16,
    pub ceiling: u16,
    /// Its method: the package, and where its header stands.
    pub package: u16,
    pub header: u16,
}

/// A call: its place and the next one, and the owners for whom code runs after it.
#[derive(Clone, Copy, Default)]
pub struct Call {
    pub place: usize,
    pub next: usize,
    pub active: u16,
    pub previous: u16,
}

/// A frame that waits.
#[derive(Clone, Copy, Default)]
struct Caller {
    frame: Frame,
    call: Call,
}

/// The frames of a run, and those of the next run after it.
pub struct Frames {
    cells: Box<Cells>,
    /// The one that runs, and those that wait.
    frame: Frame,
    callers: [Caller; MOST_CALLERS],
    depth: usize,
}

impl Frames {
    pub fn new() -> Self {
        Frames { cells: many(Cell::Short(0)), frame: Frame::default(), callers: [Caller::default(); MOST_CALLERS], depth: 0 }
    }

    /// The frame of a method which nothing called; a code fault where its cells are too many.
    pub fn begin(&mut self, code: Code, arguments: &[Cell]) -> Result<Stack<'_>, Exit> {
        let count = arguments.len() as u16;
        let bottom = count + u16::from(code.locals);
        let ceiling = bottom + u16::from(code.limit);
        if ceiling > MOST_CELLS {
            return Err(Exit::Fault);
        }
        self.cells[..arguments.len()].copy_from_slice(arguments);
        self.cells[arguments.len()..bottom.into()].fill(Cell::Short(0));
        self.frame = Frame { base: 0, bottom, ceiling, package: code.package.into(), header: code.header };
        self.depth = 0;
        let Frames { cells, frame, callers, depth } = self;
        Ok(Stack { cells, frame, callers, depth, top: bottom })
    }
}

/// The stack and the locals of the frame that runs, and the frames that wait.
pub struct Stack<'a> {
    cells: &'a mut Cells,
    pub frame: &'a mut Frame,
    callers: &'a mut [Caller; MOST_CALLERS],
    depth: &'a mut usize,
    pub top: u16,
}

impl<'a> Stack<'a> {
    #[inline(always)]
    fn cell(&self, place: u16) -> Cell {
        self.cells[usize::from(place)]
    }

    #[inline(always)]
    fn set(&mut self, place: u16, cell: Cell) {
        self.cells[usize::from(place)] = cell;
    }

    #[inline(always)]
    pub fn push(&mut self, cell: Cell) -> Result<(), Exit> {
        if self.top >= self.frame.ceiling {
            return Err(Exit::Fault);
        }
        self.set(self.top, cell);
        self.top += 1;
        Ok(())
    }

    /// Puts a cell in the place of one that was taken.
    #[inline(always)]
    pub fn put(&mut self, cell: Cell) {
        self.set(self.top, cell);
        self.top += 1;
    }

    #[inline(always)]
    pub fn pop(&mut self) -> Result<Cell, Exit> {
        if self.top <= self.frame.bottom {
            return Err(Exit::Fault);
        }
        self.top -= 1;
        Ok(self.cell(self.top))
    }

    #[inline(always)]
    pub fn pop_short(&mut self) -> Result<i16, Exit> {
        match self.pop()? {
            Cell::Short(value) => Ok(value),
            _ => Err(Exit::Fault),
        }
    }

    #[inline(always)]
    pub fn pop_reference(&mut self) -> Result<u16, Exit> {
        match self.pop()? {
            Cell::Reference(reference) => Ok(reference),
            _ => Err(Exit::Fault),
        }
    }

    /// Puts the number that is computed of the two on top in their place.
    #[inline(always)]
    pub fn compute(&mut self, of: impl Fn(i16, i16) -> i16) -> Result<(), Exit> {
        let y = self.pop_short()?;
        let x = self.pop_short()?;
        self.put(Cell::Short(of(x, y)));
        Ok(())
    }

    /// Puts the number that is computed of the one on top in its place.
    #[inline(always)]
    pub fn compute_one(&mut self, of: impl Fn(i16) -> i16) -> Result<(), Exit> {
        let x = self.pop_short()?;
        self.put(Cell::Short(of(x)));
        Ok(())
    }

    #[inline(always)]
    fn local(&self, number: u8) -> Result<u16, Exit> {
        let place = self.frame.base + u16::from(number);
        if place < self.frame.bottom {
            Ok(place)
        } else {
            Err(Exit::Fault)
        }
    }

    #[inline(always)]
    pub fn local_short(&self, number: u8) -> Result<i16, Exit> {
        match self.cell(self.local(number)?) {
            Cell::Short(value) => Ok(value),
            _ => Err(Exit::Fault),
        }
    }

    #[inline(always)]
    pub fn local_reference(&self, number: u8) -> Result<u16, Exit> {
        match self.cell(self.local(number)?) {
            Cell::Reference(reference) => Ok(reference),
            _ => Err(Exit::Fault),
        }
    }

    #[inline(always)]
    pub fn local_address(&self, number: u8) -> Result<u16, Exit> {
        match self.cell(self.local(number)?) {
            Cell::ReturnAddress(address) => Ok(address),
            _ => Err(Exit::Fault),
        }
    }

    #[inline(always)]
    pub fn load_short(&mut self, number: u8) -> Result<(), Exit> {
        let value = self.local_short(number)?;
        self.push(Cell::Short(value))
    }

    #[inline(always)]
    pub fn load_reference(&mut self, number: u8) -> Result<(), Exit> {
        let reference = self.local_reference(number)?;
        self.push(Cell::Reference(reference))
    }

    /// A reference or a return address goes into a local.
    #[inline(always)]
    pub fn store_reference(&mut self, number: u8) -> Result<(), Exit> {
        let cell = self.pop()?;
        if let Cell::Short(_) = cell {
            return Err(Exit::Fault);
        }
        let place = self.local(number)?;
        self.set(place, cell);
        Ok(())
    }

    #[inline(always)]
    pub fn store_short(&mut self, number: u8) -> Result<(), Exit> {
        let value = self.pop_short()?;
        let place = self.local(number)?;
        self.set(place, Cell::Short(value));
        Ok(())
    }

    #[inline(always)]
    pub fn increment(&mut self, number: u8, by: i16) -> Result<(), Exit> {
        let value = self.local_short(number)?;
        let place = self.local(number)?;
        self.set(place, Cell::Short(value.wrapping_add(by)));
        Ok(())
    }

    #[inline(always)]
    pub fn duplicate(&mut self) -> Result<(), Exit> {
        let cell = self.pop()?;
        self.top += 1;
        self.push(cell)
    }

    /// Copies the top `count` cells to below the top `depth`; on top where `depth` is 0.
    #[inline(always)]
    pub fn duplicate_below(&mut self, count: u8, depth: u8) -> Result<(), Exit> {
        let height = self.top - self.frame.bottom;
        let room = self.frame.ceiling - self.top;
        if height < count.max(depth).into() || room < count.into() {
            return Err(Exit::Fault);
        }
        insert_copy(&mut self.cells[..], self.top.into(), count.into(), depth.max(count).into());
        self.top += u16::from(count);
        Ok(())
    }

    /// The top `count` cells and the `below` ones below them change places.
    #[inline(always)]
    pub fn swap(&mut self, count: u8, below: u8) -> Result<(), Exit> {
        let both = u16::from(count) + u16::from(below);
        if self.top - self.frame.bottom < both {
            return Err(Exit::Fault);
        }
        self.cells[usize::from(self.top - both)..self.top.into()].rotate_right(count.into());
        Ok(())
    }

    /// The arguments of a call, the last of which is on top; a code fault where there are not as many.
    #[inline(always)]
    pub fn arguments(&self, count: u8) -> Result<&[Cell], Exit> {
        if self.top - self.frame.bottom < count.into() {
            return Err(Exit::Fault);
        }
        Ok(&self.cells[usize::from(self.top - u16::from(count))..self.top.into()])
    }

    /// The reference below the other arguments, which are this many with it.
    #[inline(always)]
    pub fn receiver(&self, arguments: u8) -> Result<u16, Exit> {
        let count = u16::from(arguments);
        if count == 0 || self.top - self.frame.bottom < count {
            return Err(Exit::Fault);
        }
        match self.cell(self.top - count) {
            Cell::Reference(reference) => Ok(reference),
            _ => Err(Exit::Fault),
        }
    }

    /// Begins the frame of a method: the arguments on the stack become its first locals. A code fault where they are not there, or
    /// where frames or cells are too many.
    #[inline(always)]
    pub fn enter(&mut self, code: &Code, call: Call) -> Result<(), Exit> {
        let count = u16::from(code.arguments);
        let bottom = self.top + u16::from(code.locals);
        let ceiling = bottom + u16::from(code.limit);
        let Some(caller) = self.callers.get_mut(*self.depth) else { return Err(Exit::Fault) };
        if self.top - self.frame.bottom < count || ceiling > MOST_CELLS {
            return Err(Exit::Fault);
        }
        *caller = Caller { frame: *self.frame, call };
        *self.depth += 1;
        *self.frame = Frame { base: self.top - count, bottom, ceiling, package: code.package.into(), header: code.header };
        while self.top < bottom {
            self.put(Cell::Short(0));
        }
        Ok(())
    }

    /// The caller's frame goes on, if there is one, after its call.
    #[inline(always)]
    pub fn leave(&mut self) -> Option<Call> {
        let depth = self.depth.wrapping_sub(1);
        let caller = self.callers.get(depth)?;
        *self.depth = depth;
        self.top = self.frame.base;
        *self.frame = caller.frame;
        Some(caller.call)
    }

    /// The stack holds this alone.
    #[inline(always)]
    pub fn hold(&mut self, cell: Cell) -> Result<(), Exit> {
        self.top = self.frame.bottom;
        self.push(cell)
    }
}

/// Below the top `depth` cells stands a copy of the top `count`.
#[inline(never)]
fn insert_copy(cells: &mut [Cell], top: usize, count: usize, depth: usize) {
    let mut copied = [Cell::Short(0); 4];
    copied[..count].copy_from_slice(&cells[top - count..top]);
    cells.copy_within(top - depth..top, top - depth + count);
    cells[top - depth..][..count].copy_from_slice(&copied[..count]);
}
