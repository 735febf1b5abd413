//! Packages that were linked: their code, what the entries of their pools name, and their classes.
use crate::api::Native;
use crate::platform;

/// A method in bytecode, as its header says.
#[derive(Clone, Copy, Default)]
pub struct Code {
    pub package: u8,
    pub is_abstract: bool,
    pub arguments: u8,
    pub locals: u8,
    pub limit: u8,
    /// Where its header stands in the package's Method component, and where its first instruction does.
    pub header: u16,
    pub start: u16,
}

#[derive(Clone, Copy)]
pub enum Method {
    Code(Code),
    Native(Native),
}

impl Method {
    /// How many cells its arguments have.
    #[inline(always)]
    pub fn arguments(self) -> u8 {
        match self {
            Method::Code(code) => code.arguments,
            Method::Native(native) => native.arguments(),
        }
    }
}

#[derive(Clone, Copy, PartialEq)]
pub enum Holds {
    Reference,
    /// A short, or a byte.
    Number,
    /// A byte alone: no second one follows it.
    Byte,
}

/// What an entry of a pool names. Its size is a power of two, so that an index is shifted.
#[derive(Clone, Copy)]
#[repr(align(16))]
pub enum Target {
    /// Nothing that there is.
    Nothing,
    Class(u16),
    Field {
        class: u16,
        cell: u16,
        is_reference: bool,
    },
    StaticField {
        word: u16,
        is_odd: bool,
        holds: Holds,
    },
    /// A method of the class by its token; the class's own method is known.
    Virtual {
        class: u16,
        token: u8,
        method: Method,
    },
    /// A static method, a constructor or a private method.
    Static(Method),
    /// A method of a superclass.
    Super {
        class: u16,
        method: Method,
    },
}

pub struct Interface {
    pub class: u16,
    /// The token of the class's method for each of the interface's.
    pub tokens: Vec<u8>,
}

pub struct Class {
    /// Where it stands in the Class component.
    pub place: u16,
    pub is_interface: bool,
    pub superclass: Option<u16>,
    /// All classes above it, and all interfaces that it implements or extends.
    pub above: Vec<u16>,
    /// How many cells an instance has, and which of its own are references.
    pub cells: u16,
    pub references: std::ops::Range<u16>,
    /// By token, those of the superclasses too.
    pub methods: Vec<Option<Method>>,
    /// Those of the superclasses too; of an interface none.
    pub interfaces: Vec<Interface>,
}

#[derive(Clone, Copy)]
pub enum Catch {
    Everything,
    Class(u16),
    /// The entry names no class.
    Nothing,
}

/// It watches over the instructions from `start` on and before `end`.
pub struct Handler {
    pub start: usize,
    pub end: usize,
    pub target: usize,
    pub catch: Catch,
}

pub struct Applet {
    pub aid: Vec<u8>,
    pub install: Option<Code>,
}

pub struct Package {
    /// The Method component.
    pub bytes: Vec<u8>,
    pub targets: Vec<Target>,
    pub classes: Vec<Class>,
    pub handlers: Vec<Handler>,
    pub applets: Vec<Applet>,
}

/// What runs: the bytes of a Method component, and what its instructions name. Code that comes with a command names nothing.
#[derive(Clone, Copy)]
pub struct Text<'a> {
    pub bytes: &'a [u8],
    pub targets: &'a [Target],
    pub handlers: &'a [Handler],
}

impl<'a> Text<'a> {
    pub fn lent(bytes: &'a [u8]) -> Self {
        Text { bytes, targets: &[], handlers: &[] }
    }
}

#[derive(Default)]
pub struct Packages {
    pub loaded: Vec<Package>,
}

impl Packages {
    #[inline(always)]
    pub fn package(&self, number: impl Into<usize>) -> Option<&Package> {
        self.loaded.get(number.into().wrapping_sub(1))
    }

    /// What the methods of a package run in; it is there.
    #[inline(always)]
    pub fn text(&self, number: impl Into<usize>) -> Option<Text<'_>> {
        let package = self.package(number)?;
        Some(Text { bytes: &package.bytes, targets: &package.targets, handlers: &package.handlers })
    }

    #[inline(always)]
    pub fn class(&self, word: u16) -> Option<&Class> {
        let [package, class] = word.to_be_bytes();
        self.package(package)?.classes.get(usize::from(class))
    }

    /// The class is the other, below it, or implements it.
    #[inline(always)]
    pub fn is_below(&self, class: u16, of: u16) -> bool {
        class == of || self.is_strictly_below(class, of)
    }

    #[inline(never)]
    fn is_strictly_below(&self, class: u16, of: u16) -> bool {
        match self.class(class) {
            Some(own) => own.above.contains(&of),
            None => platform::superclass(class).is_some_and(|above| self.is_below(above, of)),
        }
    }

    /// All that is above a class or an interface.
    pub fn above(&self, class: u16) -> Vec<u16> {
        match self.class(class) {
            Some(own) => own.above.clone(),
            None => std::iter::successors(platform::superclass(class), |above| platform::superclass(*above)).collect(),
        }
    }

    /// An interface that extends `Shareable`, or a class that implements one.
    pub fn is_shareable(&self, class: u16) -> bool {
        self.is_below(class, platform::SHAREABLE)
    }

    /// The method that a call by token on an instance of a class runs. No applet has an instance of a class of the platform that is below
    /// another.
    #[inline(always)]
    pub fn method(&self, class: u16, token: u8) -> Option<&Method> {
        self.class(class)?.methods.get(usize::from(token))?.as_ref()
    }

    /// The method of a class that carries out an interface's.
    #[inline(always)]
    pub fn interface_method(&self, class: u16, interface: u16, token: u8) -> Option<&Method> {
        let own = self.class(class)?;
        let listed = own.interfaces.iter().find(|listed| listed.class == interface)?;
        let token = *listed.tokens.get(usize::from(token))?;
        own.methods.get(usize::from(token))?.as_ref()
    }
}
