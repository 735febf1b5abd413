//! Components: what each says is lent from its bytes.

/// Why a component or a package is refused, by the number of its status word.
#[derive(Clone, Copy)]
pub enum Fault {
    Truncated = 1,
    Trailing,
    BadMagic,
    BadVersion,
    UsesInt,
    Remote,
    SizesDisagree,
    Missing,
    Repeated,
    BadOffset,
}

pub type Parsed<T> = Result<T, Fault>;
type Reads<'a, T> = fn(&'a [u8]) -> Parsed<(T, &'a [u8])>;

fn u1(bytes: &[u8]) -> Parsed<(u8, &[u8])> {
    match bytes {
        [first, rest @ ..] => Ok((*first, rest)),
        [] => Err(Fault::Truncated),
    }
}

fn u2(bytes: &[u8]) -> Parsed<(u16, &[u8])> {
    match bytes {
        [high, low, rest @ ..] => Ok((u16::from_be_bytes([*high, *low]), rest)),
        _ => Err(Fault::Truncated),
    }
}

fn run(count: usize, bytes: &[u8]) -> Parsed<(&[u8], &[u8])> {
    if bytes.len() < count {
        return Err(Fault::Truncated);
    }
    Ok(bytes.split_at(count))
}

fn aid(bytes: &[u8]) -> Parsed<(&[u8], &[u8])> {
    let (count, rest) = u1(bytes)?;
    if !(5..=16).contains(&count) {
        return Err(Fault::BadOffset);
    }
    run(count.into(), rest)
}

fn whole<T>((value, rest): (T, &[u8])) -> Parsed<T> {
    if rest.is_empty() { Ok(value) } else { Err(Fault::Trailing) }
}

/// As many parts as are counted, with the function that reads one.
#[derive(Clone, Copy)]
pub struct List<'a, T> {
    pub count: u16,
    bytes: &'a [u8],
    read: Reads<'a, T>,
}

impl<'a, T> List<'a, T> {
    #[inline(always)]
    fn read(count: u16, bytes: &'a [u8], read: Reads<'a, T>) -> Parsed<(Self, &'a [u8])> {
        let mut rest = bytes;
        for _ in 0..count {
            rest = read(rest)?.1;
        }
        Ok((List { count, bytes, read }, rest))
    }
}

impl<'a, T> Iterator for List<'a, T> {
    type Item = T;

    fn next(&mut self) -> Option<T> {
        self.count = self.count.checked_sub(1)?;
        let (part, rest) = (self.read)(self.bytes).ok()?;
        self.bytes = rest;
        Some(part)
    }
}

/// Numbers of two bytes.
#[derive(Clone, Copy)]
pub struct Numbers<'a>(&'a [u8]);

impl<'a> Numbers<'a> {
    fn read(count: u16, bytes: &'a [u8]) -> Parsed<(Self, &'a [u8])> {
        let (numbers, rest) = run(2 * usize::from(count), bytes)?;
        Ok((Numbers(numbers), rest))
    }

    pub fn iter(self) -> impl Iterator<Item = u16> + 'a {
        self.0.chunks_exact(2).map(|pair| u16::from_be_bytes([pair[0], pair[1]]))
    }
}

#[derive(Clone, Copy)]
pub struct Named<'a> {
    pub minor: u8,
    pub major: u8,
    pub aid: &'a [u8],
}

fn named(bytes: &[u8]) -> Parsed<(Named<'_>, &[u8])> {
    let (minor, rest) = u1(bytes)?;
    let (major, rest) = u1(rest)?;
    let (aid, rest) = aid(rest)?;
    Ok((Named { minor, major, aid }, rest))
}

#[derive(Clone, Copy)]
pub enum ClassRef {
    Internal(u16),
    External(u8, u8),
}

fn class_ref(bytes: &[u8]) -> Parsed<(ClassRef, &[u8])> {
    let (word, rest) = u2(bytes)?;
    if word < 0x8000 {
        return Ok((ClassRef::Internal(word), rest));
    }
    let [high, low] = word.to_be_bytes();
    Ok((ClassRef::External(high - 128, low), rest))
}

#[derive(Clone, Copy)]
pub struct Header<'a> {
    pub format: u8,
    exports: bool,
    has_applets: bool,
    pub this: Named<'a>,
}

fn header(info: &[u8]) -> Parsed<Header<'_>> {
    let (magic, rest) = run(4, info)?;
    if magic != [0xDE, 0xCA, 0xFF, 0xED] {
        return Err(Fault::BadMagic);
    }
    let (format, rest) = u1(rest)?;
    if !matches!(format, 1 | 2) {
        return Err(Fault::BadVersion);
    }
    let (major, rest) = u1(rest)?;
    if major != 2 {
        return Err(Fault::BadVersion);
    }
    let (flags, rest) = u1(rest)?;
    if flags % 2 == 1 {
        return Err(Fault::UsesInt);
    }
    if flags > 7 {
        return Err(Fault::BadOffset);
    }
    let (this, mut rest) = named(rest)?;
    if format == 2 {
        let (count, behind) = u1(rest)?;
        rest = run(count.into(), behind)?.1;
    }
    whole((Header { format, exports: flags & 2 != 0, has_applets: flags & 4 != 0, this }, rest))
}

fn custom(bytes: &[u8]) -> Parsed<(u8, &[u8])> {
    let (tag, rest) = u1(bytes)?;
    if tag < 128 {
        return Err(Fault::BadOffset);
    }
    let (_, rest) = u2(rest)?;
    let (_, rest) = aid(rest)?;
    Ok((tag, rest))
}

struct Directory<'a> {
    sizes: Numbers<'a>,
    image_size: u16,
    array_count: u16,
    array_size: u16,
    imports: u8,
    applets: u8,
}

fn directory(format: u8, info: &[u8]) -> Parsed<Directory<'_>> {
    let (sizes, rest) = Numbers::read(if format == 1 { 11 } else { 12 }, info)?;
    let (image_size, rest) = u2(rest)?;
    let (array_count, rest) = u2(rest)?;
    let (array_size, rest) = u2(rest)?;
    let (imports, rest) = u1(rest)?;
    let (applets, rest) = u1(rest)?;
    let (customs, rest) = u1(rest)?;
    let (_, rest) = List::read(customs.into(), rest, custom)?;
    whole((Directory { sizes, image_size, array_count, array_size, imports, applets }, rest))
}

fn applet(bytes: &[u8]) -> Parsed<((&[u8], u16), &[u8])> {
    let (aid, rest) = aid(bytes)?;
    let (install, rest) = u2(rest)?;
    Ok(((aid, install), rest))
}

fn counted<'a, T>(info: &'a [u8], read: Reads<'a, T>) -> Parsed<List<'a, T>> {
    let (count, rest) = u1(info)?;
    whole(List::read(count.into(), rest, read)?)
}

/// A static field or method: its offset in this package, or the tokens of package, class and member.
#[derive(Clone, Copy)]
pub enum StaticRef {
    Internal(u16),
    External(u8, u8, u8),
}

#[derive(Clone, Copy)]
pub enum Entry {
    Class(ClassRef),
    InstanceField(ClassRef, u8),
    VirtualMethod(ClassRef, u8),
    SuperMethod(ClassRef, u8),
    StaticField(StaticRef),
    StaticMethod(StaticRef),
}

fn static_ref(bytes: &[u8]) -> Parsed<(StaticRef, &[u8])> {
    let (high, rest) = u1(bytes)?;
    if high == 0 {
        let (offset, rest) = u2(rest)?;
        return Ok((StaticRef::Internal(offset), rest));
    }
    if high < 128 {
        return Err(Fault::BadOffset);
    }
    let (class, rest) = u1(rest)?;
    let (token, rest) = u1(rest)?;
    Ok((StaticRef::External(high - 128, class, token), rest))
}

#[inline(always)]
fn entry(bytes: &[u8]) -> Parsed<(Entry, &[u8])> {
    let (tag, rest) = u1(bytes)?;
    match tag {
        1..=4 => {
            let (class, rest) = class_ref(rest)?;
            let (token, rest) = u1(rest)?;
            let entry = match tag {
                1 => Entry::Class(class),
                2 => Entry::InstanceField(class, token),
                3 => Entry::VirtualMethod(class, token),
                _ => Entry::SuperMethod(class, token),
            };
            Ok((entry, rest))
        }
        5 => {
            let (field, rest) = static_ref(rest)?;
            Ok((Entry::StaticField(field), rest))
        }
        6 => {
            let (method, rest) = static_ref(rest)?;
            Ok((Entry::StaticMethod(method), rest))
        }
        _ => Err(Fault::BadOffset),
    }
}

fn pool(info: &[u8]) -> Parsed<List<'_, Entry>> {
    let (count, rest) = u2(info)?;
    whole(List::read(count, rest, entry)?)
}

/// The first token of a method table, and the offsets of its methods.
#[derive(Clone, Copy)]
pub struct Table<'a> {
    pub base: u8,
    pub offsets: Numbers<'a>,
}

pub struct ClassInfo<'a> {
    pub superclass: ClassRef,
    pub cells: u8,
    pub first_reference: u8,
    pub references: u8,
    pub public: Table<'a>,
    pub package: Table<'a>,
    pub interfaces: List<'a, (ClassRef, &'a [u8])>,
}

pub enum Record<'a> {
    Interface(List<'a, ClassRef>),
    Class(ClassInfo<'a>),
}

fn implemented(bytes: &[u8]) -> Parsed<((ClassRef, &[u8]), &[u8])> {
    let (class, rest) = class_ref(bytes)?;
    let (count, rest) = u1(rest)?;
    let (tokens, rest) = run(count.into(), rest)?;
    Ok(((class, tokens), rest))
}

/// A superclass or superinterface has to be one of the records before it, or in another package.
fn check_earlier(before: Option<&[u16]>, class: ClassRef) -> Parsed<()> {
    match (before, class) {
        (Some(before), ClassRef::Internal(offset)) if !before.contains(&offset) => Err(Fault::BadOffset),
        _ => Ok(()),
    }
}

fn record<'a>(before: Option<&[u16]>, bytes: &'a [u8]) -> Parsed<(Record<'a>, &'a [u8])> {
    let (first, rest) = u1(bytes)?;
    let (flags, count) = (first / 16, first % 16);
    if !matches!(flags, 0 | 4 | 8 | 12) {
        return Err(if flags & 2 != 0 { Fault::Remote } else { Fault::BadOffset });
    }
    if flags >= 8 {
        let mut behind = rest;
        for _ in 0..count {
            let (class, next) = class_ref(behind)?;
            check_earlier(before, class)?;
            behind = next;
        }
        let (list, rest) = List::read(count.into(), rest, class_ref)?;
        return Ok((Record::Interface(list), rest));
    }
    let (superclass, rest) = class_ref(rest)?;
    check_earlier(before, superclass)?;
    let (cells, rest) = u1(rest)?;
    let (first_reference, rest) = u1(rest)?;
    let (references, rest) = u1(rest)?;
    if references != 0 && u16::from(cells) < u16::from(first_reference) + u16::from(references) {
        return Err(Fault::BadOffset);
    }
    let (public_base, rest) = u1(rest)?;
    let (public_count, rest) = u1(rest)?;
    let (package_base, rest) = u1(rest)?;
    let (package_count, rest) = u1(rest)?;
    let (public, rest) = Numbers::read(public_count.into(), rest)?;
    let (package, rest) = Numbers::read(package_count.into(), rest)?;
    let (interfaces, rest) = List::read(count.into(), rest, implemented)?;
    let class = ClassInfo {
        superclass,
        cells,
        first_reference,
        references,
        public: Table { base: public_base, offsets: public },
        package: Table { base: package_base % 128, offsets: package },
        interfaces,
    };
    Ok((Record::Class(class), rest))
}

/// The records, by their offsets.
pub struct Classes<'a> {
    info: &'a [u8],
    pub offsets: Vec<u16>,
}

impl<'a> Classes<'a> {
    pub fn get(&self, number: usize) -> Option<Record<'a>> {
        record(None, &self.info[usize::from(self.offsets[number])..]).ok().map(|(record, _)| record)
    }
}

fn classes(format: u8, info: &[u8]) -> Parsed<Classes<'_>> {
    let mut rest = info;
    if format == 2 {
        let (count, behind) = u2(info)?;
        rest = run(count.into(), behind)?.1;
    }
    let mut offsets = Vec::new();
    while !rest.is_empty() {
        if offsets.len() == 256 {
            return Err(Fault::BadOffset);
        }
        let next = record(Some(&offsets), rest)?.1;
        offsets.push((info.len() - rest.len()) as u16);
        rest = next;
    }
    Ok(Classes { info, offsets })
}

pub struct Methods<'a> {
    pub info: &'a [u8],
    start: usize,
}

fn methods(info: &[u8]) -> Parsed<Methods<'_>> {
    let (count, rest) = u1(info)?;
    run(8 * usize::from(count), rest)?;
    Ok(Methods { info, start: 1 + 8 * usize::from(count) })
}

impl Methods<'_> {
    fn has_room(&self, offset: u16) -> bool {
        let offset = usize::from(offset);
        match self.info.get(offset..) {
            Some([first, rest @ ..]) if offset >= self.start => rest.len() >= if *first > 127 { 3 } else { 1 },
            _ => false,
        }
    }
}

fn static_array(bytes: &[u8]) -> Parsed<(&[u8], &[u8])> {
    let (kind, rest) = u1(bytes)?;
    if !matches!(kind, 2..=4) {
        return Err(Fault::BadOffset);
    }
    let (count, rest) = u2(rest)?;
    if kind == 4 && count % 2 != 0 {
        return Err(Fault::BadOffset);
    }
    run(count.into(), rest)
}

pub struct Statics<'a> {
    pub image_size: u16,
    pub references: u16,
    arrays: List<'a, &'a [u8]>,
}

fn statics(info: &[u8]) -> Parsed<Statics<'_>> {
    let (image_size, rest) = u2(info)?;
    let (references, rest) = u2(rest)?;
    let (count, rest) = u2(rest)?;
    if references < count {
        return Err(Fault::BadOffset);
    }
    let (arrays, rest) = List::read(count, rest, static_array)?;
    let (zeros, rest) = u2(rest)?;
    let (others, rest) = u2(rest)?;
    if u32::from(image_size) != 2 * u32::from(references) + u32::from(zeros) + u32::from(others) {
        return Err(Fault::SizesDisagree);
    }
    let (_, rest) = run(others.into(), rest)?;
    whole((Statics { image_size, references, arrays }, rest))
}

#[derive(Clone, Copy)]
pub struct Exported<'a> {
    pub class: u16,
    pub fields: Numbers<'a>,
    pub methods: Numbers<'a>,
}

fn exported(bytes: &[u8]) -> Parsed<(Exported<'_>, &[u8])> {
    let (class, rest) = u2(bytes)?;
    let (fields, rest) = u1(rest)?;
    let (methods, rest) = u1(rest)?;
    let (fields, rest) = Numbers::read(fields.into(), rest)?;
    let (methods, rest) = Numbers::read(methods.into(), rest)?;
    Ok((Exported { class, fields, methods }, rest))
}

/// The info of a component whose bytes are its tag, its size and the info.
fn info(tag: u8, bytes: &[u8]) -> Parsed<&[u8]> {
    match bytes {
        [first, rest @ ..] if *first == tag => {
            let (size, info) = u2(rest)?;
            match info.len() {
                length if length < size.into() => Err(Fault::Truncated),
                length if length > size.into() => Err(Fault::Trailing),
                _ => Ok(info),
            }
        }
        _ => Err(Fault::Missing),
    }
}

/// Reads a component as it ends; the format is given, which a Header tells.
pub fn read_component(format: Option<u8>, tag: u8, bytes: &[u8]) -> Parsed<Option<u8>> {
    if format.is_none() && matches!(tag, 2 | 6) {
        return Err(Fault::Missing);
    }
    let info = info(tag, bytes)?;
    let known = format.unwrap_or(1);
    match tag {
        1 => return header(info).map(|header| Some(header.format)),
        2 => drop(directory(known, info)?),
        3 => drop(counted(info, applet)?),
        4 => drop(counted(info, named)?),
        5 => drop(pool(info)?),
        6 => drop(classes(known, info)?),
        7 => drop(methods(info)?),
        8 => drop(statics(info)?),
        10 => drop(counted(info, exported)?),
        _ => {}
    }
    Ok(format)
}

/// The components of a package that came, by their tags.
pub type Components = [Option<Vec<u8>>; 12];

/// What the components of a package say.
pub struct Contents<'a> {
    pub header: Header<'a>,
    pub applets: Option<List<'a, (&'a [u8], u16)>>,
    pub imports: List<'a, Named<'a>>,
    pub pool: List<'a, Entry>,
    pub classes: Classes<'a>,
    pub methods: Methods<'a>,
    pub statics: Statics<'a>,
    pub exports: Option<List<'a, Exported<'a>>>,
}

/// Reads a package, whose components have to agree.
pub fn read_package(components: &Components) -> Parsed<Contents<'_>> {
    let text = |tag: usize| components[tag].as_deref();
    let needed = |tag: usize| text(tag).ok_or(Fault::Missing);
    let first = header(info(1, needed(1)?)?)?;
    needed(2)?;
    for tag in [3, 4, 5, 6, 7, 8, 10] {
        if (tag != 3 || first.has_applets) && (tag != 10 || first.exports) {
            needed(tag)?;
        }
    }
    let header = header(info(1, needed(1)?)?)?;
    let directory = directory(header.format, info(2, needed(2)?)?)?;
    let contents = Contents {
        header,
        applets: text(3).map(|text| counted(info(3, text)?, applet)).transpose()?,
        imports: counted(info(4, needed(4)?)?, named)?,
        pool: pool(info(5, needed(5)?)?)?,
        classes: classes(header.format, info(6, needed(6)?)?)?,
        methods: methods(info(7, needed(7)?)?)?,
        statics: statics(info(8, needed(8)?)?)?,
        exports: text(10).map(|text| counted(info(10, text)?, exported)).transpose()?,
    };
    if !sizes_agree(components, &directory, &contents) {
        return Err(Fault::SizesDisagree);
    }
    if !offsets_fit(&contents) {
        return Err(Fault::BadOffset);
    }
    Ok(contents)
}

fn sizes_agree(components: &Components, directory: &Directory<'_>, contents: &Contents<'_>) -> bool {
    let sizes = (1..=11).zip(directory.sizes.iter()).all(|(tag, size)| match &components[tag] {
        Some(text) => text.len() - 3 == size.into(),
        None => matches!(tag, 9 | 11) || size == 0,
    });
    sizes
        && directory.image_size == contents.statics.image_size
        && directory.array_count == contents.statics.arrays.count
        && usize::from(directory.array_size) == contents.statics.arrays.map(<[u8]>::len).sum()
        && u16::from(directory.imports) == contents.imports.count
        && u16::from(directory.applets) == contents.applets.map_or(0, |applets| applets.count)
}

fn offsets_fit(contents: &Contents<'_>) -> bool {
    let Contents { classes, methods, .. } = contents;
    let begins = |class: ClassRef| match class {
        ClassRef::Internal(offset) => classes.offsets.contains(&offset),
        ClassRef::External(..) => true,
    };
    let mut applets = contents.applets.into_iter().flatten();
    let mut pool = contents.pool;
    let mut exports = contents.exports.into_iter().flatten();
    applets.all(|(_, install)| methods.has_room(install))
        && pool.all(|entry| match entry {
            Entry::Class(class)
            | Entry::InstanceField(class, _)
            | Entry::VirtualMethod(class, _)
            | Entry::SuperMethod(class, _) => begins(class),
            Entry::StaticMethod(StaticRef::Internal(offset)) => methods.has_room(offset),
            _ => true,
        })
        && (0..classes.offsets.len()).all(|number| match classes.get(number) {
            Some(Record::Class(class)) => {
                class.public.offsets.iter().all(|offset| offset == 65535 || methods.has_room(offset))
                    && class.package.offsets.iter().all(|offset| methods.has_room(offset))
            }
            _ => true,
        })
        && exports.all(|exported| {
            classes.offsets.contains(&exported.class) && exported.methods.iter().all(|offset| methods.has_room(offset))
        })
}
