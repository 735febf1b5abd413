//! The platform's names, which are those of the example table, and tables that tell their tokens.
use std::sync::LazyLock;

static EXAMPLE: &str = include_str!("../../examples/platform.table");

#[derive(Clone, Copy, PartialEq)]
pub enum Kind {
    Static,
    Virtual,
    Interface,
}

fn kind_of(keyword: &[u8]) -> Option<Kind> {
    match keyword {
        b"static" => Some(Kind::Static),
        b"virtual" => Some(Kind::Virtual),
        b"interface" => Some(Kind::Interface),
        _ => None,
    }
}

pub struct ClassName {
    pub home: usize,
    pub name: &'static [u8],
}

pub struct MethodName {
    class: usize,
    kind: Kind,
    name: &'static [u8],
}

pub struct Names {
    packages: Vec<(&'static [u8], Vec<u8>)>,
    pub classes: Vec<ClassName>,
    methods: Vec<MethodName>,
}

fn names() -> Names {
    let mut names = Names { packages: Vec::new(), classes: Vec::new(), methods: Vec::new() };
    for line in EXAMPLE.lines() {
        let words: Vec<&'static [u8]> = line.split(' ').map(str::as_bytes).collect();
        match (words[0], words[1], words[2]) {
            (b"package", aid, _) => {
                let digit = |byte: u8| (byte as char).to_digit(16).expect("a digit") as u8;
                names.packages.push((aid, aid.chunks(2).map(|pair| digit(pair[0]) * 16 + digit(pair[1])).collect()));
            }
            (b"class", _, name) => names.classes.push(ClassName { home: names.packages.len() - 1, name }),
            (keyword, _, name) => {
                let kind = kind_of(keyword).expect("a keyword");
                names.methods.push(MethodName { class: names.classes.len() - 1, kind, name });
            }
        }
    }
    names
}

pub static NAMES: LazyLock<Names> = LazyLock::new(names);

/// What the classes are, by their places among the names.
pub struct Facts {
    pub object: usize,
    pub shareable: usize,
    pub pin: usize,
    pub owner_pin: usize,
    pub aid: usize,
    pub applet: usize,
    pub superclasses: Vec<Option<usize>>,
    pub cells: Vec<u16>,
}

fn place_of(name: &str) -> usize {
    NAMES.classes.iter().position(|class| class.name == name.as_bytes()).expect("a class")
}

fn facts() -> Facts {
    let superclass = |name: &str| match name {
        "Object" | "Shareable" | "PIN" => None,
        "Exception" => Some("Throwable"),
        "RuntimeException" | "CardException" => Some("Exception"),
        "ArrayIndexOutOfBoundsException" => Some("IndexOutOfBoundsException"),
        "IndexOutOfBoundsException" | "ArithmeticException" | "ArrayStoreException" | "ClassCastException"
        | "NegativeArraySizeException" | "NullPointerException" | "SecurityException" | "CardRuntimeException" => {
            Some("RuntimeException")
        }
        "ISOException" | "PINException" | "SystemException" | "TransactionException" | "APDUException" => {
            Some("CardRuntimeException")
        }
        "UserException" => Some("CardException"),
        _ => Some("Object"),
    };
    let cells = |name: &str| match name {
        "CardException" | "CardRuntimeException" | "ISOException" | "PINException" | "SystemException"
        | "TransactionException" | "APDUException" | "UserException" => 1,
        "AID" => 9,
        "OwnerPIN" => 5,
        _ => 0,
    };
    let texts = || NAMES.classes.iter().map(|class| std::str::from_utf8(class.name).expect("a name"));
    Facts {
        object: place_of("Object"),
        shareable: place_of("Shareable"),
        pin: place_of("PIN"),
        owner_pin: place_of("OwnerPIN"),
        aid: place_of("AID"),
        applet: place_of("Applet"),
        superclasses: texts().map(|name| superclass(name).map(place_of)).collect(),
        cells: texts().map(cells).collect(),
    }
}

pub static FACTS: LazyLock<Facts> = LazyLock::new(facts);

/// The tokens that a table tells.
pub struct Platform {
    first: usize,
    pub versions: [(u8, u8); 2],
    class_tokens: Vec<u8>,
    method_tokens: Vec<u8>,
}

fn number(word: &[u8]) -> Option<u8> {
    if word.first() == Some(&b'+') {
        return None;
    }
    std::str::from_utf8(word).ok()?.parse().ok()
}

#[derive(Default)]
struct Reading {
    home: Option<usize>,
    class: Option<usize>,
    first: Option<usize>,
    versions: [Option<(u8, u8)>; 2],
    class_tokens: Vec<Option<u8>>,
    method_tokens: Vec<Option<u8>>,
}

impl Reading {
    fn line(&mut self, line: &[u8]) -> Option<()> {
        let mut words = line.split(|byte| *byte == b' ');
        let (keyword, second, third) = (words.next()?, words.next()?, words.next()?);
        match (keyword, words.next()) {
            (b"package", Some(fourth)) if words.next().is_none() => self.package(second, third, fourth),
            (b"class", None) => self.class(second, third),
            (_, None) => self.method(keyword, second, third),
            _ => None,
        }
    }

    fn package(&mut self, aid: &[u8], major: &[u8], minor: &[u8]) -> Option<()> {
        let place = NAMES.packages.iter().position(|(name, _)| *name == aid)?;
        let version = (number(major)?, number(minor)?);
        if self.versions[place].is_some() {
            return None;
        }
        self.versions[place] = Some(version);
        self.home = Some(place);
        self.class = None;
        self.first = self.first.or(Some(place));
        Some(())
    }

    fn class(&mut self, token: &[u8], name: &[u8]) -> Option<()> {
        let token = number(token)?;
        let place = NAMES.classes.iter().position(|class| class.name == name)?;
        let home = NAMES.classes[place].home;
        let is_taken = || (NAMES.classes.iter().zip(&self.class_tokens)).any(|(class, other)| class.home == home && *other == Some(token));
        if self.home != Some(home) || self.class_tokens[place].is_some() || is_taken() {
            return None;
        }
        self.class_tokens[place] = Some(token);
        self.class = Some(place);
        Some(())
    }

    fn method(&mut self, keyword: &[u8], token: &[u8], name: &[u8]) -> Option<()> {
        let kind = kind_of(keyword)?;
        let token = number(token)?;
        let class = self.class?;
        let is_of = |method: &MethodName| method.class == class && method.kind == kind;
        let place = NAMES.methods.iter().position(|method| is_of(method) && method.name == name)?;
        let is_taken = || (NAMES.methods.iter().zip(&self.method_tokens)).any(|(method, other)| is_of(method) && *other == Some(token));
        if kind != Kind::Static && token > 127 || self.method_tokens[place].is_some() || is_taken() {
            return None;
        }
        self.method_tokens[place] = Some(token);
        Some(())
    }
}

/// Reads the text of a table.
pub fn read_table(text: &[u8]) -> Option<Platform> {
    let mut reading = Reading {
        class_tokens: vec![None; NAMES.classes.len()],
        method_tokens: vec![None; NAMES.methods.len()],
        ..Reading::default()
    };
    let mut rest = text;
    while !rest.is_empty() {
        let end = rest.iter().position(|byte| *byte == b'\n')?;
        reading.line(&rest[..end])?;
        rest = &rest[end + 1..];
    }
    Some(Platform {
        first: reading.first?,
        versions: [reading.versions[0]?, reading.versions[1]?],
        class_tokens: reading.class_tokens.into_iter().collect::<Option<_>>()?,
        method_tokens: reading.method_tokens.into_iter().collect::<Option<_>>()?,
    })
}

impl Platform {
    pub fn number(&self, package: usize) -> u16 {
        if package == self.first { 64 } else { 65 }
    }

    pub fn package_with_number(&self, number: u16) -> Option<usize> {
        (0..2).find(|package| self.number(*package) == number)
    }

    pub fn package_with_aid(&self, aid: &[u8]) -> Option<usize> {
        NAMES.packages.iter().position(|(_, known)| known == aid)
    }

    pub fn word(&self, class: usize) -> u16 {
        256 * self.number(NAMES.classes[class].home) + u16::from(self.class_tokens[class])
    }

    pub fn class_with_token(&self, home: usize, token: u8) -> Option<usize> {
        (NAMES.classes.iter().zip(&self.class_tokens)).position(|(class, other)| class.home == home && *other == token)
    }

    pub fn class_with_word(&self, word: u16) -> Option<usize> {
        self.class_with_token(self.package_with_number(word / 256)?, (word % 256) as u8)
    }

    pub fn method(&self, class: usize, kind: Kind, token: u8) -> Option<usize> {
        (NAMES.methods.iter().zip(&self.method_tokens))
            .position(|(method, other)| method.class == class && method.kind == kind && *other == token)
    }
}
