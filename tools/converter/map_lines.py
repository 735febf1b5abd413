"""The lines of a map, which tell where the methods of a package and their instructions stand, and what its constant pool names elsewhere."""
from . import card_components as cap
from .instructions import flow_of, instructions_of
from .refusal import class_name, method_name, type_name


def told_method(owner, name, descriptor):
    """A method as Java names it, in one word. One whose descriptor has another form is printed with it."""
    try:
        told = method_name(owner, name, descriptor)
    except (IndexError, KeyError, ValueError):
        told = f"{class_name(owner)}.{name}{descriptor}"
    return ascii(told)[1:-1].replace(" ", "")


def word_of(text):
    """A text as one word of ASCII; a hyphen stands for none."""
    return ascii(text)[1:-1].replace(" ", "") or "-"


def told_type(descriptor):
    """A type as Java writes it. One whose descriptor has another form is printed as it."""
    try:
        return word_of(type_name(descriptor))
    except (IndexError, KeyError):
        return word_of(descriptor)


def told_record(number, record):
    """The lines of a class: its number, name, the class above and the file, and after it its fields."""
    yield f"class {number} {word_of(class_name(record.name))} {word_of(class_name(record.above))} {word_of(record.file)}"
    yield from (f"field {cell} {told_type(kind)} {word_of(name)}" for cell, (kind, name) in sorted(record.fields.items()))
    yield from (f"static {place} {told_type(kind)} {word_of(name)}" for place, (kind, name) in sorted(record.statics.items()))


def name_in(tables, token):
    """The name that has a token in one of some tables of names, or None."""
    return next((name for table in tables for name, each in table.items() if each == token), None)


def imported_name(entry, info, names):
    """What an entry names of a class of another package, in one word; or None."""
    if entry.tag == cap.CLASS:
        return class_name(info.name)
    if entry.tag in (cap.INSTANCE_FIELD, cap.STATIC_FIELD):
        field = name_in((info.fields if entry.tag == cap.INSTANCE_FIELD else info.static_fields,), entry.token)
        return field and f"{class_name(info.name)}.{field}"
    member = names.member(info, entry.token, entry.tag == cap.STATIC_METHOD)
    return member and told_method(*member)


def entry_lines(imports, pool, names):
    """For each entry of a constant pool that names what stands in another package a line `entry N AID CLASS TOKEN: NAME`, where the name is known:
    N counts from 0, CLASS and TOKEN are the tokens, and an entry of a class has no TOKEN."""
    lines = []
    for number, entry in enumerate(pool or []):
        ref = entry.class_ref
        if ref is None or not ref.is_external or ref.package_token >= len(imports or []):
            continue
        aid = imports[ref.package_token][0]
        info = names.class_info(aid, ref.class_token)
        name = info and imported_name(entry, info, names)
        if name:
            token = "" if entry.tag == cap.CLASS else f" {entry.token}"
            lines.append(f"entry {number} {aid.hex().upper()} {ref.class_token}{token}: {name}")
    return "".join(f"{line}\n" for line in lines)


def map_text(aid, info, names, java_lines, records=(), java_locals=None):
    """The lines for a package's names by their offsets in the info of its Method component, after one that states its AID and those that
    state its classes, by their numbers. After each name stands a line that a blank begins: the offsets of the method's instructions,
    OFFSET:LINE where a line of the Java source begins; then its local variables, and where its instructions lead."""
    lines, places = [f"package {aid.hex().upper()}"], sorted(names)
    for number, record in records:
        lines += told_record(number, record)
    for start, end in zip(places, [*places[1:], len(info)]):
        lines.append(f"{start} {names[start]}")
        found = instructions_of(info, start, end)
        lines.append("".join(f" {at}:{java_lines[at]}" if at in java_lines else f" {at}" for at in found) or " ")
        for each in (java_locals or {}).get(start, ()):
            lines.append(f"local {each.number} {each.start} {each.end} {told_type(each.descriptor)} {word_of(each.name)}")
        if any(at in java_lines for at in found):
            lines += (" ".join(map(str, ("local", kind, at, *targets))) for kind, at, targets in flow_of(info, found))
    return "".join(f"{line}\n" for line in lines)
