//! Packages that are linked: classes by their words, what each entry of a pool resolves to.
use crate::components::*;
use crate::platform::{FACTS, Kind, Platform};

#[derive(Clone, Copy)]
pub enum Method {
    Code(u16, u16),
    Native(usize),
}

pub enum Target {
    Class(u16),
    InstanceField(u16, u32, bool),
    VirtualMethod(u16, u8, Method),
    SuperMethod(u16, Method),
    StaticField(u16, u16),
    StaticMethod(Option<u16>, Method),
}

#[derive(Default)]
struct Tokens {
    base: u8,
    offsets: Vec<u16>,
}

enum Search {
    Found(Method),
    Above,
    Nowhere,
}

impl Tokens {
    fn find(&self, package: u16, token: u8) -> Search {
        let Some(place) = token.checked_sub(self.base) else { return Search::Above };
        match self.offsets.get(usize::from(place)) {
            None => Search::Nowhere,
            Some(65535) => Search::Above,
            Some(offset) => Search::Found(Method::Code(package, *offset)),
        }
    }
}

#[derive(Default)]
pub struct Class {
    offset: u16,
    is_interface: bool,
    superclass: u16,
    interfaces: Vec<(u16, Vec<u8>)>,
    inherited: u32,
    declared: u8,
    first_reference: u8,
    references: u8,
    public: Tokens,
    package: Tokens,
}

struct Export {
    class: u16,
    fields: Vec<u16>,
    methods: Vec<u16>,
}

pub struct Package {
    aid: Vec<u8>,
    version: (u8, u8),
    imports: Vec<u16>,
    classes: Vec<Class>,
    exports: Vec<Export>,
    pub targets: Vec<Target>,
    pub methods: Vec<u8>,
    pub applets: Vec<(Vec<u8>, u16)>,
    pub image: (u16, u16),
}

/// The platform's packages, and those that were loaded.
pub struct Linked {
    pub platform: Platform,
    pub loaded: Vec<Package>,
}

impl Linked {
    fn package(&self, number: u16) -> Option<&Package> {
        self.loaded.get(usize::from(number.checked_sub(1)?))
    }

    fn class(&self, word: u16) -> Option<&Class> {
        self.package(word / 256)?.classes.get(usize::from(word % 256))
    }

    pub fn is_class(&self, word: u16) -> bool {
        self.class(word).is_some() || self.platform.class_with_word(word).is_some()
    }

    pub fn is_interface(&self, word: u16) -> bool {
        match self.class(word) {
            Some(class) => class.is_interface,
            None => self.platform.class_with_word(word).is_some_and(|class| class == FACTS.shareable || class == FACTS.pin),
        }
    }

    fn superclass(&self, word: u16) -> Option<u16> {
        match self.class(word) {
            Some(class) => (!class.is_interface).then_some(class.superclass),
            None => Some(self.platform.word(FACTS.superclasses[self.platform.class_with_word(word)?]?)),
        }
    }

    fn lineage(&self, word: u16) -> impl Iterator<Item = u16> + '_ {
        std::iter::successors(Some(word), |word| self.superclass(*word)).take(8704)
    }

    /// The class is one of the platform, or below it.
    pub fn is_a(&self, word: u16, class: usize) -> bool {
        let of = self.platform.word(class);
        self.lineage(word).any(|above| above == of)
    }

    pub fn cells(&self, word: u16) -> u32 {
        match self.class(word) {
            Some(class) => class.inherited + u32::from(class.declared),
            None => self.platform.class_with_word(word).map_or(0, |class| FACTS.cells[class].into()),
        }
    }

    /// A cell of an instance holds a reference.
    pub fn holds_reference(&self, word: u16, cell: u16) -> bool {
        self.lineage(word).any(|above| match self.class(above) {
            Some(class) => u32::from(cell).checked_sub(class.inherited).is_some_and(|field| class.declares_reference(field)),
            None => cell == 4 && self.platform.class_with_word(above) == Some(FACTS.owner_pin),
        })
    }

    fn method_in(&self, word: u16, token: u8) -> Search {
        let is_public = token < 128;
        match self.class(word) {
            Some(class) if is_public => class.public.find(word / 256, token),
            Some(class) => class.package.find(word / 256, token - 128),
            None => match self.platform.class_with_word(word) {
                Some(class) if is_public => {
                    self.platform.method(class, Kind::Virtual, token).map_or(Search::Above, |method| Search::Found(Method::Native(method)))
                }
                _ => Search::Nowhere,
            },
        }
    }

    fn method_at(&self, word: u16, package: u16, token: u8) -> Option<Method> {
        for above in self.lineage(word).filter(|above| token < 128 || above / 256 == package) {
            match self.method_in(above, token) {
                Search::Found(method) => return Some(method),
                Search::Above => {}
                Search::Nowhere => return None,
            }
        }
        None
    }

    fn class_with_token(&self, number: u16, token: u8) -> Option<u16> {
        match self.package(number) {
            Some(package) => package.class_at(number, package.exports.get(usize::from(token))?.class),
            None => {
                let class = self.platform.class_with_token(self.platform.package_with_number(number)?, token)?;
                Some(self.platform.word(class))
            }
        }
    }

    fn named(&self, number: u16, own: &Package, class: ClassRef) -> Option<u16> {
        match class {
            ClassRef::Internal(offset) => own.class_at(number, offset),
            ClassRef::External(package, token) => self.class_with_token(*own.imports.get(usize::from(package))?, token),
        }
    }

    fn resolution(&self, number: u16, entry: Entry) -> Option<Target> {
        let own = self.package(number)?;
        match entry {
            Entry::Class(class) => Some(Target::Class(self.named(number, own, class)?)),
            Entry::InstanceField(class, token) => {
                let word = self.named(number, own, class)?;
                let class = self.class(word)?;
                let is_reference = class.declares_reference(token.into());
                (token < class.declared).then_some(Target::InstanceField(word, class.inherited + u32::from(token), is_reference))
            }
            Entry::VirtualMethod(class, token) => {
                let word = self.named(number, own, class)?;
                if self.is_interface(word) {
                    return None;
                }
                Some(Target::VirtualMethod(word, token, self.method_at(word, word / 256, token)?))
            }
            Entry::SuperMethod(class, token) => {
                let word = self.named(number, own, class)?;
                Some(Target::SuperMethod(word, self.method_at(self.superclass(word)?, word / 256, token)?))
            }
            Entry::StaticField(StaticRef::Internal(offset)) => Some(Target::StaticField(number, offset)),
            Entry::StaticField(StaticRef::External(package, class, token)) => {
                let other = *own.imports.get(usize::from(package))?;
                let export = self.package(other)?.exports.get(usize::from(class))?;
                Some(Target::StaticField(other, *export.fields.get(usize::from(token))?))
            }
            Entry::StaticMethod(StaticRef::Internal(offset)) => Some(Target::StaticMethod(None, Method::Code(number, offset))),
            Entry::StaticMethod(StaticRef::External(package, class, token)) => {
                let other = *own.imports.get(usize::from(package))?;
                let word = self.class_with_token(other, class)?;
                let method = match self.package(other).and_then(|package| package.exports.get(usize::from(class))) {
                    Some(export) => Method::Code(other, *export.methods.get(usize::from(token))?),
                    None => Method::Native(self.platform.method(self.platform.class_with_word(word)?, Kind::Static, token)?),
                };
                Some(Target::StaticMethod(Some(word), method))
            }
        }
    }

    fn import(&self, import: Named<'_>) -> Option<u16> {
        let (number, (major, minor)) = match self.platform.package_with_aid(import.aid) {
            Some(package) => (self.platform.number(package), self.platform.versions[package]),
            None => {
                let place = self.loaded.iter().position(|package| package.aid == import.aid)?;
                (place as u16 + 1, self.loaded[place].version)
            }
        };
        (import.major == major && import.minor <= minor).then_some(number)
    }

    fn linked_class(&self, number: u16, own: &Package, done: &[Class], offset: u16, record: Record<'_>) -> Class {
        let word_of = |class| self.named(number, own, class).unwrap_or(0);
        match record {
            Record::Interface(list) => Class {
                offset,
                is_interface: true,
                interfaces: list.map(|class| (word_of(class), Vec::new())).collect(),
                ..Class::default()
            },
            Record::Class(info) => {
                let superclass = word_of(info.superclass);
                let inherited = if superclass / 256 == number {
                    done.get(usize::from(superclass % 256)).map_or(0, |class| class.inherited + u32::from(class.declared))
                } else {
                    self.cells(superclass)
                };
                let tokens = |table: Table<'_>| Tokens { base: table.base, offsets: table.offsets.iter().collect() };
                Class {
                    offset,
                    is_interface: false,
                    superclass,
                    interfaces: info.interfaces.map(|(class, tokens)| (word_of(class), tokens.to_vec())).collect(),
                    inherited: inherited.min(65536),
                    declared: info.cells,
                    first_reference: info.first_reference,
                    references: info.references,
                    public: tokens(info.public),
                    package: tokens(info.package),
                }
            }
        }
    }

    fn is_complete(&self, number: u16, place: usize) -> bool {
        let word = 256 * number + place as u16;
        let class = &self.loaded[usize::from(number) - 1].classes[place];
        let public = |word, token: usize| token < 128 && self.method_at(word, number, token as u8).is_some();
        (class.is_interface || self.is_class(class.superclass) && !self.is_interface(class.superclass))
            && class.interfaces.iter().all(|(interface, tokens)| {
                self.is_interface(*interface) && tokens.iter().all(|token| public(word, usize::from(*token)))
            })
            && class.public.offsets.iter().enumerate().all(|(place, offset)| {
                *offset != 65535 || public(class.superclass, usize::from(class.public.base) + place)
            })
    }

    /// Links a package after those that are there.
    pub fn link(&mut self, contents: &Contents<'_>) -> Option<()> {
        if self.platform.package_with_aid(contents.header.this.aid).is_some()
            || self.loaded.iter().any(|package| package.aid == contents.header.this.aid)
            || self.loaded.len() >= 32
        {
            return None;
        }
        let number = self.loaded.len() as u16 + 1;
        let imports = contents.imports.map(|import| self.import(import)).collect::<Option<Vec<u16>>>()?;
        let mut package = Package {
            aid: contents.header.this.aid.to_vec(),
            version: (contents.header.this.major, contents.header.this.minor),
            imports,
            classes: contents.classes.offsets.iter().map(|offset| Class { offset: *offset, ..Class::default() }).collect(),
            exports: (contents.exports.into_iter().flatten())
                .map(|export| Export {
                    class: export.class,
                    fields: export.fields.iter().collect(),
                    methods: export.methods.iter().collect(),
                })
                .collect(),
            targets: Vec::new(),
            methods: contents.methods.info.to_vec(),
            applets: contents.applets.into_iter().flatten().map(|(aid, install)| (aid.to_vec(), install)).collect(),
            image: (contents.statics.image_size, contents.statics.references),
        };
        let mut done = Vec::new();
        for (place, offset) in contents.classes.offsets.iter().enumerate() {
            let class = self.linked_class(number, &package, &done, *offset, contents.classes.get(place)?);
            done.push(class);
        }
        package.classes = done;
        self.loaded.push(package);
        let targets = contents.pool.map(|entry| self.resolution(number, entry)).collect::<Option<Vec<Target>>>();
        let places = contents.classes.offsets.len();
        match targets {
            Some(targets) if (0..places).all(|place| self.is_complete(number, place)) => {
                self.loaded.last_mut()?.targets = targets;
                Some(())
            }
            _ => None,
        }
    }
}

impl Class {
    fn declares_reference(&self, field: u32) -> bool {
        let first = u32::from(self.first_reference);
        first <= field && field < first + u32::from(self.references)
    }
}

impl Package {
    fn class_at(&self, number: u16, offset: u16) -> Option<u16> {
        let place = self.classes.iter().position(|class| class.offset == offset)?;
        Some(256 * number + place as u16)
    }
}
