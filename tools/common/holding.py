"""Objects by the fields that hold them, as Java names them: the array at 3060 is purse.Purse.amounts, an object in an array shop.Shop.seats[1].
And the values of words, by the types of their fields."""

OF_PIN = ("limit of tries", "largest length", "tries left", "length of the value", "value")
NUMBERS, SMALL = ("byte", "short", "int"), ("byte", "boolean")
SIZES = {"byte": 1, "boolean": 1, "int": 4}  # bytes of a static field; else 2
WORD, SIGN = 65536, 32768
LONGEST = 6  # steps from an applet or a static field to an object that is named so


def address(told):
    """The object that a cell names, as in @3060; None where it names none."""
    return int(told[1:]) if told.startswith("@") and told[1:].isdigit() else None


def value_of(kind, told):
    """What a word says that is told in digits: a number with its sign, true or false, or a reference."""
    if kind in NUMBERS:
        return str(int(told) - WORD if int(told) >= SIGN else int(told))
    if kind == "boolean":
        return {"0": "false", "1": "true"}.get(told, told)
    return f"@{told}" if told != "0" else "null"


class Holders:
    """The names of the objects of a dump: on the shortest way from a static field or from a field of an applet; else the field that holds it."""

    def __init__(self, records, names):
        self.names, self.found = names, {}
        self.objects = {record["at"]: record for record in records if record["record"] == "object"}
        aids = {record["number"]: record["aid"] for record in records if record["record"] == "package"}
        roots = [record["instance"] for record in records if record["record"] == "registered" and record.get("instance") in self.objects]
        waiting = []
        for record in records:
            if record["record"] == "package words":
                waiting += self.hold(zip(record["static_image"], self.statics(aids.get(record["number"]), len(record["static_image"]))))
        for at in roots:
            waiting += self.hold(self.fields(self.objects[at]))
        for _ in range(LONGEST):
            waiting = [each for at in waiting for each in self.hold(self.within(at))]
        for at, record in self.objects.items():
            if at not in self.found and at not in roots:
                self.hold(self.fields(record))

    def hold(self, pairs):
        """Takes pairs of a cell and the name of its field; which objects have got a name so."""
        added = []
        for told, name in pairs:
            at = address(told)
            if name and at in self.objects and at not in self.found:
                self.found[at] = name
                added.append(at)
        return added

    def fields(self, record):
        """The cells of an instance, each with the name of its field in its class."""
        return [(told, self.names.field(record["class"], cell)) for cell, told in enumerate(record.get("cells", ()))]

    def within(self, at):
        """What an object that has a name holds itself: pairs as above."""
        record, name = self.objects[at], self.found[at]
        if "pin" in record:
            return [(record["pin"]["value"], f"{name} value")]
        if "key" in record:
            return [(record["key"]["array"], f"{name} key")]
        if "engine" in record:
            return [(record["engine"]["state"], f"{name} state")]
        if record["class"].endswith("[]"):
            return [(told, f"{name}[{index}]") for index, told in enumerate(record.get("cells", ()))]
        return [(told, f"{name}.{field.rpartition('.')[2]}") for told, field in self.fields(record) if field]

    def name(self, at):
        """The field that holds an object; None where none is known."""
        return self.found.get(at)

    def cell(self, at, kind, cell, elements=1):
        """The name of a cell of an object of a class, or of so many elements of an array from there on."""
        held = self.name(at)
        if kind.endswith("[]"):
            last = min(cell + elements, self.objects[at]["length"] if at in self.objects else cell + elements) - 1
            which = f"[{cell}]" if last <= cell else f"[{cell}..{last}]"
            return f"{held}{which}" if held else f"{self.names.class_name(kind)} {which}"
        if kind == "OwnerPIN" and cell < len(OF_PIN):
            return f"{held or kind}: {OF_PIN[cell]}"
        field = self.names.field(kind, cell)
        if held:
            return f"{held}.{field.rpartition('.')[2]}" if field else f"{held} [{cell}]"
        return field or f"{self.names.class_name(kind)} [{cell}]"

    def value(self, kind, cell, told):
        """What a word of a cell says, by the type of the field: two elements apart, or as above; as it is told where no type is known."""
        array = kind.removesuffix("[]")
        found = self.names.typed_field(kind, cell)
        if array in SMALL and len(told) == 4:
            return f"{told[:2]} {told[2:]}"
        if not told.isdigit() or not found and array == kind:
            return told
        return value_of(found[0] if found else array, told)

    # ---- static fields

    def fields_of_package(self, aid):
        """The static fields of a package: of each its first byte, its type and its name."""
        package = self.names.packages.get(aid)
        return sorted((place, kind, f"{each.name}.{name}") for each in (package.classes.values() if package else ()) for place, (kind, name) in each.statics.items())

    def static_fields(self, aid, words):
        """Of each word of a static image its fields: pairs of a type and a name. A short may stand in two words, and two bytes in one."""
        found = [()] * words
        for place, kind, name in self.fields_of_package(aid):
            for word in {place // 2, (place + SIZES.get(kind, 2) - 1) // 2}:
                if word < words:
                    found[word] += ((kind, name),)
        return found

    def statics(self, aid, words):
        """The names of the static fields in each word of a static image, or None."""
        return [", ".join(name for _, name in fields) or None for fields in self.static_fields(aid, words)]

    def static_value(self, aid, words, at, content):
        """What a word of a static image says: that of one field of a whole word, or two bytes."""
        fields = self.static_fields(aid, words)
        whole = len(fields[at]) == 1 and SIZES.get(fields[at][0][0], 2) == 2 and sum(fields[at][0] in each for each in fields) == 1
        return value_of(fields[at][0][0], str(content)) if whole else f"{content >> 8:02X} {content & 255:02X}"

    def static_values(self, aid, image):
        """What each static field of a package says, by its name, in a static image as a dump tells it; each word where no name is known."""
        found = {name: in_image(image, place, kind) for place, kind, name in self.fields_of_package(aid) if place + SIZES.get(kind, 2) <= 2 * len(image)}
        return found or {f"static field at byte {2 * at}": told for at, told in enumerate(image)}


def in_image(image, place, kind):
    """What the field at a byte of a static image says."""
    if image[place // 2] == "null" or address(image[place // 2]) is not None:
        return image[place // 2]
    size = SIZES.get(kind, 2)
    content = int("".join(f"{each:0>4}"[:4] for each in image)[2 * place:2 * (place + size)], 16)
    if kind == "boolean":
        return value_of(kind, str(content))
    return str(content - (1 << 8 * size) if content >> 8 * size - 1 else content)
