//! From the components of a CAP file to a linked package. Their bytes are not checked here, since loads are measured elsewhere.
use crate::packages::{Applet, Catch, Class, Code, Handler, Holds, Interface, Method, Package, Packages, Target};
use crate::platform;

// The tags of components.
const APPLET: usize = 3;
const IMPORT: usize = 4;
const CONSTANT_POOL: usize = 5;
const CLASS: usize = 6;
const METHOD: usize = 7;
const STATIC_FIELD: usize = 8;

/// The components' bytes by their tags.
pub type Components = [Vec<u8>; 16];

/// How many bytes the static image has.
pub fn size_of_statics(components: &Components) -> u16 {
    u2(&components[STATIC_FIELD], 0)
}

/// A package with this number, whose static image begins at a word.
pub fn link(components: &Components, number: u8, statics: u16, linked: &Packages) -> Package {
    let bytes = components[METHOD].clone();
    let mut linker = Linker { components, number, imports: imports(&components[IMPORT]), classes: Vec::new(), bytes: &bytes, linked };
    linker.read_classes();
    let targets: Vec<Target> = components[CONSTANT_POOL][2..].chunks_exact(4).map(|entry| linker.target(entry, statics)).collect();
    let handlers = handlers(&bytes, &targets);
    let applets = linker.applets();
    let classes = linker.classes;
    Package { bytes, targets, classes, handlers, applets }
}

struct Linker<'a> {
    components: &'a Components,
    number: u8,
    /// The numbers of the packages that are imported.
    imports: Vec<u8>,
    classes: Vec<Class>,
    bytes: &'a [u8],
    linked: &'a Packages,
}

fn u2(bytes: &[u8], at: usize) -> u16 {
    u16::from_be_bytes([bytes[at], bytes[at + 1]])
}

fn imports(bytes: &[u8]) -> Vec<u8> {
    let mut numbers = Vec::new();
    let mut rest = &bytes[1..];
    while let [_, _, length, others @ ..] = rest {
        let (aid, others) = others.split_at((*length).into());
        numbers.push(if aid == platform::LANG { 0x40 } else { 0x41 });
        rest = others;
    }
    numbers
}

fn handlers(bytes: &[u8], targets: &[Target]) -> Vec<Handler> {
    let catch = |entry: u16| match (entry, targets.get(usize::from(entry))) {
        (0, _) => Catch::Everything,
        (_, Some(Target::Class(class))) => Catch::Class(*class),
        _ => Catch::Nothing,
    };
    let handler = |bytes: &[u8]| {
        let start = u2(bytes, 0).into();
        let end = start + usize::from(u2(bytes, 2) & 0x7FFF);
        Handler { start, end, target: u2(bytes, 4).into(), catch: catch(u2(bytes, 6)) }
    };
    bytes[1..].chunks_exact(8).take(bytes[0].into()).map(handler).collect()
}

impl Linker<'_> {
    /// The word of a class, by its reference.
    fn class_word(&self, reference: u16) -> u16 {
        if reference & 0x8000 != 0 {
            return u16::from_be_bytes([self.imports[usize::from(reference >> 8 & 0x7F)], reference as u8]);
        }
        let class = self.classes.iter().position(|class| class.place == reference).expect("a class");
        u16::from_be_bytes([self.number, class as u8])
    }

    /// A class of this package.
    fn class(&self, word: u16) -> Option<&Class> {
        if word >> 8 == self.number.into() {
            self.classes.get(usize::from(word & 0xFF))
        } else {
            None
        }
    }

    /// What the header at a place of the Method component says.
    fn code(&self, header: u16) -> Option<Code> {
        let at = usize::from(header);
        let first = *self.bytes.get(at)?;
        let code = Code { package: self.number, is_abstract: first & 0x40 != 0, header, ..Code::default() };
        if first & 0x80 != 0 {
            let &[_, limit, arguments, locals] = self.bytes.get(at..at + 4)? else { return None };
            return Some(Code { limit, arguments, locals, start: header + 4, ..code });
        }
        let second = *self.bytes.get(at + 1)?;
        Some(Code { limit: first & 15, arguments: second >> 4, locals: second & 15, start: header + 2, ..code })
    }

    fn read_classes(&mut self) {
        let bytes = &self.components[CLASS];
        let mut at = 0;
        while at < bytes.len() {
            let place = at as u16;
            let (is_interface, count) = (bytes[at] & 0x80 != 0, usize::from(bytes[at] & 15));
            at += 1;
            let class = if is_interface { self.interface(place, count, &mut at) } else { self.class_at(place, count, &mut at) };
            self.classes.push(class);
        }
    }

    fn interface(&self, place: u16, count: usize, at: &mut usize) -> Class {
        let bytes = &self.components[CLASS];
        let extended: Vec<u16> = (0..count).map(|k| self.class_word(u2(bytes, *at + 2 * k))).collect();
        *at += 2 * count;
        let above = self.above(&extended);
        let (methods, interfaces) = (Vec::new(), Vec::new());
        Class { place, is_interface: true, superclass: None, above, cells: 0, references: 0..0, methods, interfaces }
    }

    /// These, and all that is above them.
    fn above(&self, named: &[u16]) -> Vec<u16> {
        let mut all = named.to_vec();
        for class in named {
            match self.class(*class) {
                Some(own) => all.extend(&own.above),
                None => all.extend(self.linked.above(*class)),
            }
        }
        all
    }

    fn class_at(&self, place: u16, count: usize, at: &mut usize) -> Class {
        let bytes = &self.components[CLASS];
        let superclass = self.class_word(u2(bytes, *at));
        let [own_cells, first, references, base, methods, _, package_methods] = bytes[*at + 2..*at + 9] else { unreachable!() };
        let above = self.class(superclass);
        let cells_above = above.map_or(0, |class| class.cells);
        let first = cells_above + u16::from(first);
        let mut table: Vec<Option<Method>> = match above {
            Some(class) => class.methods.clone(),
            None => (0..128).map(|token| self.platform_method(superclass, token)).collect(),
        };
        for k in 0..usize::from(methods) {
            let token = usize::from(base) + k;
            let header = u2(bytes, *at + 9 + 2 * k);
            if token >= table.len() {
                table.resize(token + 1, None);
            }
            if header != 0xFFFF {
                table[token] = self.code(header).map(Method::Code);
            }
        }
        *at += 9 + 2 * (usize::from(methods) + usize::from(package_methods));
        let mut interfaces = Vec::new();
        for _ in 0..count {
            let length = usize::from(bytes[*at + 2]);
            let tokens = bytes[*at + 3..*at + 3 + length].to_vec();
            interfaces.push(Interface { class: self.class_word(u2(bytes, *at)), tokens });
            *at += 3 + length;
        }
        if let Some(class) = above {
            let listed = class.interfaces.iter().map(|listed| Interface { class: listed.class, tokens: listed.tokens.clone() });
            interfaces.extend(listed);
        }
        let named: Vec<u16> = std::iter::once(superclass).chain(interfaces.iter().map(|listed| listed.class)).collect();
        let classes_above = self.above(&named);
        Class {
            place,
            is_interface: false,
            superclass: Some(superclass),
            above: classes_above,
            cells: cells_above + u16::from(own_cells),
            references: first..first + u16::from(references),
            methods: table,
            interfaces,
        }
    }

    /// A method of a class of the platform, or of one above it.
    fn platform_method(&self, class: u16, token: u8) -> Option<Method> {
        let own = platform::virtual_method(class, token).map(Method::Native);
        own.or_else(|| platform::superclass(class).and_then(|above| self.platform_method(above, token)))
    }

    fn method(&self, class: u16, token: u8) -> Option<Method> {
        match self.class(class) {
            Some(own) => *own.methods.get(usize::from(token))?,
            None if class >> 8 >= 0x40 => self.platform_method(class, token),
            None => self.linked.method(class, token).copied(),
        }
    }

    /// What an entry of the pool names.
    fn target(&self, entry: &[u8], statics: u16) -> Target {
        let (reference, token) = (u2(entry, 1), entry[3]);
        match entry[0] {
            1 => Target::Class(self.class_word(reference)),
            2 => self.field(reference, token),
            3 => {
                let class = self.class_word(reference);
                self.method(class, token).map_or(Target::Nothing, |method| Target::Virtual { class, token, method })
            }
            4 => {
                let class = self.class(self.class_word(reference)).and_then(|own| own.superclass);
                let method = class.and_then(|class| Some((class, self.method(class, token)?)));
                method.map_or(Target::Nothing, |(class, method)| Target::Super { class, method })
            }
            5 if entry[1] == 0 => self.static_field(u2(entry, 2), statics),
            6 if entry[1] == 0 => self.code(u2(entry, 2)).map_or(Target::Nothing, |code| Target::Static(Method::Code(code))),
            6 => {
                let class = self.class_word(reference);
                platform::static_method(class, token).map_or(Target::Nothing, |native| Target::Static(Method::Native(native)))
            }
            _ => Target::Nothing,
        }
    }

    fn field(&self, reference: u16, token: u8) -> Target {
        let class = self.class_word(reference);
        let Some(own) = self.class(class) else { return Target::Nothing };
        let above = own.superclass.and_then(|above| self.class(above)).map_or(0, |class| class.cells);
        let cell = above + u16::from(token);
        Target::Field { class, cell, is_reference: own.references.contains(&cell) }
    }

    fn static_field(&self, offset: u16, statics: u16) -> Target {
        let (size, references) = (u2(&self.components[STATIC_FIELD], 0), u2(&self.components[STATIC_FIELD], 2));
        let holds = if offset >= size {
            return Target::Nothing;
        } else if offset / 2 < references {
            if offset % 2 == 1 {
                return Target::Nothing;
            }
            Holds::Reference
        } else if offset + 1 < size {
            Holds::Number
        } else {
            Holds::Byte
        };
        Target::StaticField { word: statics + offset / 2, is_odd: offset % 2 == 1, holds }
    }

    fn applets(&self) -> Vec<Applet> {
        let bytes = &self.components[APPLET];
        let mut applets = Vec::new();
        let mut rest = bytes.get(1..).unwrap_or(&[]);
        while let [length, others @ ..] = rest {
            let (aid, others) = others.split_at((*length).into());
            applets.push(Applet { aid: aid.to_vec(), install: self.code(u2(others, 0)) });
            rest = &others[2..];
        }
        applets
    }
}
