//! Calls, returns and exceptions.
use crate::api::Native;
use crate::exits::Exit;
use crate::firewall::Access;
use crate::frames::{Call, Cell, Stack};
use crate::heap::Header;
use crate::machine::Machine;
use crate::packages::{Catch, Code, Method, Packages, Target, Text};
use crate::platform;
use crate::store::Store;

/// The class of an object; arrays are instances of `Object`.
#[inline(always)]
fn class_of(header: Header) -> u16 {
    if header.is_instance() {
        header.class
    } else {
        platform::OBJECT
    }
}

/// The arguments on the stack are of the kinds that a method of the platform wants. Bytecode looks at what it is given as it uses it.
#[inline(always)]
fn fits(method: &Method, stack: &Stack) -> Result<bool, Exit> {
    match method {
        Method::Code(_) => Ok(true),
        Method::Native(native) => Ok(native.fits(stack.arguments(native.arguments())?)),
    }
}

/// The method of a class below the one that was named.
#[inline(never)]
fn overriding(own: u16, class: u16, token: u8, arguments: u8, linked: &Packages) -> Result<&Method, Exit> {
    let own = linked.class(own).filter(|own| own.above.contains(&class)).ok_or(Exit::Fault)?;
    match own.methods.get(usize::from(token)) {
        Some(Some(found)) if found.arguments() == arguments => Ok(found),
        _ => Err(Exit::Fault),
    }
}

/// Where the first handler goes on that catches a class at a place of the method which begins there.
fn handler(text: Text, method: usize, class: u16, place: usize, linked: &Packages) -> Result<Option<usize>, Exit> {
    for handler in text.handlers {
        if !(handler.start..handler.end).contains(&place) {
            continue;
        }
        match handler.catch {
            Catch::Everything => {}
            Catch::Class(caught) if linked.is_below(class, caught) => {}
            Catch::Class(_) => continue,
            Catch::Nothing => return Err(Exit::Fault),
        }
        let is_inside = (method..text.bytes.len()).contains(&handler.target);
        return if is_inside { Ok(Some(handler.target)) } else { Err(Exit::Fault) };
    }
    Ok(None)
}

impl<S: Store> Machine<'_, S> {
    #[inline(always)]
    pub fn call_static(&mut self) -> Result<(), Exit> {
        let index = self.u2()?;
        match self.target(index)? {
            Target::Static(Method::Code(code)) => self.enter(code, None),
            Target::Static(Method::Native(native)) if !native.is_constructor() => self.call_native(*native),
            _ => Err(Exit::Fault),
        }
    }

    /// Calls a constructor, a private method, or one of a superclass.
    #[inline(always)]
    pub fn call_special(&mut self) -> Result<(), Exit> {
        let index = self.u2()?;
        let (class, method) = match self.target(index)? {
            Target::Static(method) => (None, method),
            Target::Super { class, method } => (Some(*class), method),
            _ => return Err(Exit::Fault),
        };
        let receiver = self.stack.receiver(method.arguments())?;
        if !fits(method, &self.stack)? {
            return Err(Exit::Fault);
        }
        let header = self.memory.heap.header(receiver)?;
        if class.is_some_and(|class| !self.linked.is_below(class_of(header), class)) {
            return Err(Exit::Fault);
        }
        self.memory.allow(Access::Field, receiver, header, self.linked)?;
        self.call(method, None)
    }

    #[inline(always)]
    pub fn call_virtual(&mut self) -> Result<(), Exit> {
        let index = self.u2()?;
        let Target::Virtual { class, token, method } = self.target(index)? else {
            return Err(Exit::Fault);
        };
        let receiver = self.stack.receiver(method.arguments())?;
        if receiver == 0 && !fits(method, &self.stack)? {
            return Err(Exit::Fault);
        }
        let header = self.memory.heap.header(receiver)?;
        let own = class_of(header);
        let found = if own == *class { method } else { overriding(own, *class, *token, method.arguments(), self.linked)? };
        if !fits(found, &self.stack)? {
            return Err(Exit::Fault);
        }
        let owner = self.memory.allow_call(Access::VirtualCall, receiver, header, self.linked)?;
        self.call(found, owner)
    }

    #[inline(always)]
    pub fn call_interface(&mut self) -> Result<(), Exit> {
        let (arguments, index, token) = (self.u1()?, self.u2()?, self.u1()?);
        let Target::Class(interface) = *self.target(index)? else {
            return Err(Exit::Fault);
        };
        let receiver = self.stack.receiver(arguments)?;
        let header = self.memory.heap.header(receiver)?;
        let found = self.linked.interface_method(class_of(header), interface, token).ok_or(Exit::Fault)?;
        if found.arguments() != arguments || !fits(found, &self.stack)? {
            return Err(Exit::Fault);
        }
        let owner = if self.memory.is_own(header) {
            None
        } else {
            let is_shared = self.linked.is_shareable(interface);
            let access = if is_shared { Access::SharedCall } else { Access::InterfaceCall };
            self.memory.allow_call(access, receiver, header, self.linked)?
        };
        self.call(found, owner)
    }

    #[inline(always)]
    fn call(&mut self, method: &Method, owner: Option<u16>) -> Result<(), Exit> {
        match method {
            Method::Code(code) => self.enter(code, owner),
            Method::Native(native) => self.call_native(*native),
        }
    }

    #[inline(always)]
    fn call_native(&mut self, native: Native) -> Result<(), Exit> {
        let count = native.arguments();
        let arguments = self.stack.arguments(count)?;
        let answer = native.call(arguments, self.memory, self.linked)?;
        self.stack.top -= u16::from(count);
        match answer {
            None => Ok(()),
            Some(cell) => self.stack.push(cell),
        }
    }

    /// Begins the frame of a method, for an owner, where that is another one.
    #[inline(always)]
    fn enter(&mut self, code: &Code, owner: Option<u16>) -> Result<(), Exit> {
        if code.is_abstract {
            return Err(Exit::Fault);
        }
        let registers = &mut self.memory.registers;
        let (active, previous) = (registers.active, registers.previous);
        let before = self.stack.frame.package;
        self.stack.enter(code, Call { place: self.start, next: self.pc, active, previous })?;
        if let Some(owner) = owner {
            registers.previous = active;
            registers.active = owner;
        }
        self.pc = code.start.into();
        self.change_text(before)
    }

    /// The caller goes on, if there is one: where its call stands.
    #[inline(always)]
    fn leave(&mut self) -> Result<Option<usize>, Exit> {
        let before = self.stack.frame.package;
        let Some(call) = self.stack.leave() else { return Ok(None) };
        self.pc = call.next;
        self.memory.registers.active = call.active;
        self.memory.registers.previous = call.previous;
        self.change_text(before)?;
        Ok(Some(call.place))
    }

    #[inline(always)]
    pub fn return_with(&mut self, value: Option<Cell>) -> Result<(), Exit> {
        if self.leave()?.is_none() {
            self.memory.returned = value;
            return Err(Exit::Return);
        }
        match value {
            None => Ok(()),
            Some(cell) => self.stack.push(cell),
        }
    }

    #[inline(always)]
    pub fn return_short(&mut self) -> Result<(), Exit> {
        let value = self.stack.pop_short()?;
        self.return_with(Some(Cell::Short(value)))
    }

    #[inline(always)]
    pub fn return_reference(&mut self) -> Result<(), Exit> {
        let value = self.stack.pop_reference()?;
        self.return_with(Some(Cell::Reference(value)))
    }

    #[inline(always)]
    pub fn throw_object(&mut self) -> Result<(), Exit> {
        let object = self.stack.pop_reference()?;
        let header = self.memory.heap.header(object)?;
        if !header.is_instance() || !self.linked.is_below(header.class, platform::THROWABLE) {
            return Err(Exit::Fault);
        }
        self.memory.allow(Access::Throw, object, header, self.linked)?;
        self.memory.thrown = object;
        Err(Exit::ThrowObject)
    }

    /// Goes on where a handler catches what is thrown, in the first frame that has such a one; else the run ends.
    #[inline(always)]
    pub fn catch(&mut self, exit: Exit) -> Result<(), Exit> {
        match exit {
            Exit::Throw(exception) => self.memory.throw(exception)?,
            Exit::ThrowObject => {}
            other => return Err(other),
        }
        let object = self.memory.thrown;
        let class = self.memory.heap.header(object)?.class;
        let mut place = self.start;
        loop {
            if let Some(target) = handler(self.text, self.stack.frame.header.into(), class, place, self.linked)? {
                self.pc = target;
                return self.stack.hold(Cell::Reference(object));
            }
            place = self.leave()?.ok_or(Exit::ThrowObject)?;
        }
    }
}
