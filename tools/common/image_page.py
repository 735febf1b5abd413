"""The picture of an image, or of two beside each other: whose the words are, and what differs."""
from .card_image import DESELECT_AREA, HEADER, PACKAGES, RESET_AREA, TABLE, TWO_IN_A_WORD
from .holding import Holders
from .pages import Heads, Raw, code, escaped, figures, meter, page, table

ENVIRONMENT, JOURNAL, FREE = "the runtime environment", "the journal", "free"
SHADES = 7
LETTERS = "ABCDEFGHIJKLMNOPQRSTUVWXYZ"
NARROWEST = 2  # per cent of a bar in which a letter has room
OWNERS, DIFFER = ("", "whose", "words"), "differ"
LEVELS = ("what", "taken", "of", "")


class Part:
    """Words of an image that belong together: whose they are, what they are, and how many."""

    def __init__(self, owner, what, first, size):
        self.owner, self.what, self.first, self.size = owner, what, first, size

    def has(self, word):
        return self.first <= word < self.first + self.size


def joined(parts):
    """Parts with those of the same owner that stand beside each other as one."""
    made = []
    for part in parts:
        last = made[-1] if made else None
        if last and last.owner == part.owner and last.first + last.size == part.first:
            made[-1] = Part(last.owner, "its words", last.first, last.size + part.size)
        else:
            made.append(part)
    return made


class Memory:
    """An image: its words, whose they are, and the names of its objects."""

    def __init__(self, image, records, names):
        self.image, self.records, self.names = image, records, names
        self.holders = Holders(records, names)
        self.aids = {record["number"]: record["aid"] for record in records if record["record"] == "package"}
        self.applets = {record["aid"]: self.class_at(record["number"]) for record in records if record["record"] == "applet"}
        self.parts = sorted((part for part in [*self.fixed_parts(), *self.heap_parts()] if part.size > 0), key=lambda part: part.first)
        self.owners = self.owners_in_order()

    def class_at(self, number):
        """The class of the instance of an applet, by the map; nothing where it does not tell it."""
        instance = next((record.get("instance") for record in self.records if record["record"] == "registered" and record["number"] == number), None)
        told = self.holders.objects[instance]["class"] if instance in self.holders.objects else ""
        name = self.names.class_name(told)
        return name if name != told else ""

    def package_name(self, aid):
        """The name of a package, which its classes begin with; nothing where the map does not tell it."""
        known = self.names.packages.get(aid)
        return next((each.name.rpartition(".")[0] for each in known.classes.values()), "") if known else ""

    def whole_name(self, owner):
        """An owner with its name in the Java source, where the map tells it."""
        kind, _, aid = owner.partition(" ")
        name = {"package": self.package_name, "applet": lambda of: self.applets.get(of, "")}.get(kind, lambda _: "")(aid)
        return f"{kind} {name} ({aid})" if name else owner

    def fixed_parts(self):
        """The parts outside the heap's objects."""
        image = self.image
        parts = [Part(ENVIRONMENT, "the head", 0, 16), Part(ENVIRONMENT, "the registry", PACKAGES, TABLE - PACKAGES),
                 Part(ENVIRONMENT, "the platform table", TABLE, image.heap - TABLE), Part(JOURNAL, f"{image.capacity} entries", image.journal, 2 * image.capacity)]
        if image.journal > 16:
            parts.append(Part(FREE, "not used, as the journal stands above", 16, PACKAGES - 16))
        return [*parts, Part(FREE, "free words of the heap", image.top, image.end - image.top)]

    def heap_parts(self):
        for record in self.records:
            if record["record"] == "package words":
                yield Part(f"package {self.aids[record['number']]}", "code and static fields", record["at"], record["words"])
            elif record["record"] == "object":
                owner = record["owner"] if record["owner"] != "environment" else ENVIRONMENT
                yield Part(owner, self.told_object(record), record["at"], self.image.size_of(record["at"], record["length"]))

    def told_object(self, record):
        """An object, and the field that holds it."""
        held = self.holders.name(record["at"])
        kind = self.names.class_name(record["class"])
        length = f"{kind[:-2]}[{record['length']}]" if kind.endswith("[]") else kind
        return f"@{record['at']} {length}" + (f", {held}" if held else "")

    def owners_in_order(self):
        """Whose words there are, the environment first and what is free last, each with its number of words."""
        sums = {}
        for part in self.parts:
            sums[part.owner] = sums.get(part.owner, 0) + part.size
        order = sorted(sums, key=lambda owner: (owner == FREE, owner != ENVIRONMENT, owner != JOURNAL, not owner.startswith("package"), owner))
        return {owner: sums[owner] for owner in order}

    def static_words(self, record, other):
        """The words of a package's static image that have another value in another image of it."""
        start = record["at"] + record["words"] - len(record["static_image"])
        return [start + at for at, pair in enumerate(zip(record["static_image"], other["static_image"])) if pair[0] != pair[1]]

    def word_of(self, record):
        """The word that a record of a change is of."""
        if "object" not in record:
            return record["word"]
        is_pair = self.image.words[record["object"]] & 0xFF in TWO_IN_A_WORD
        return record["object"] + HEADER + (record["cell"] // 2 if is_pair else record["cell"])


class ImagePage:
    """What is drawn of one image or two."""

    def __init__(self, memories, against):
        self.memories, self.against = memories, against
        owners = list(dict.fromkeys(owner for memory in memories for owner in memory.owners if owner != FREE))
        self.keys = {owner: (LETTERS[number % len(LETTERS)], f"s{1 + number % SHADES}") for number, owner in enumerate(owners)}
        self.keys[FREE] = ("", "")
        self.changed = [record for record in against if record["record"] == "changed"]
        self.packages = pairs_of_packages(against)
        self.heads = Heads("differences", "object", "what", *(memory.image.name for memory in memories))

    def made(self):
        title = " and ".join(memory.image.name for memory in self.memories)
        kind = "jcard: the words of an image" if len(self.memories) == 1 else "jcard: the words of two images"
        sections = "".join(map(self.told_image, self.memories))
        return page(title, kind, self.told_changes() if len(self.memories) > 1 else "", f"<div class=\"pair\">{sections}</div>", stacked=(self.heads,))

    def differing(self, memory):
        """The words that have another value in the other image."""
        return sorted({*(memory.word_of(record) for record in self.changed), *(word for pair in self.packages for word in memory.static_words(*pair))})

    # ---- an image

    def told_image(self, memory):
        image, words = memory.image, self.differing(memory)
        loaded = [part for part in memory.parts if part.owner.startswith(("package", "applet"))]
        zoomed = f"<h3>Packages and applets alone</h3>\n{self.bar(memory, f'packages and applets of {image.name}', loaded, words)}" if loaded else ""
        free = memory.owners.get(FREE, 0)
        return (f"<section><h2>{escaped(image.name)}</h2>\n"
                + figures(("words", len(image.words)), ("free", f"{free} ({100 * free // len(image.words)} %)"), ("packages", len(memory.aids)), ("applets", len(memory.applets)))
                + f"<h3>All words</h3>\n{self.bar(memory, f'the words of {image.name}', joined(memory.parts), words)}\n{zoomed}\n{self.told_owners(memory, words)}\n{self.levels(memory)}\n"
                + "<h3>Objects</h3>\n" + "\n".join(self.told_parts(memory, owner, words) for owner in memory.owners) + "</section>")

    def bar(self, memory, label, parts, words):
        """A bar of parts, as wide as they are large, with a mark below each word that differs."""
        whole, spans, marks, at = sum(part.size for part in parts), [], [], 0
        for part in parts:
            letter, shade = self.keys[part.owner]
            title = f"{memory.whole_name(part.owner)}: {part.what}, {part.size} words from word {part.first}"
            shown = letter if 100 * part.size >= NARROWEST * whole else ""
            spans.append(f"<span class=\"{shade}\" style=\"flex-grow:{part.size}\" title=\"{escaped(title)}\">{shown}</span>")
            marks += [f"<i style=\"left:{100 * (at + word - part.first) / whole:.2f}%\"></i>" for word in words if part.has(word)]
            at += part.size
        told = ", ".join(f"{self.keys[owner][0]} {memory.whole_name(owner)} {size} words" for owner, size in memory.owners.items() if any(part.owner == owner for part in parts))
        ticks = f"<div class=\"ticks\" aria-hidden=\"true\">{''.join(dict.fromkeys(marks))}</div>" if marks else ""
        return f"<div class=\"bar\" role=\"img\" aria-label=\"{escaped(label)}: {escaped(told)}\">{''.join(spans)}</div>{ticks}"

    def swatch(self, owner):
        letter, shade = self.keys[owner]
        return Raw(f"<span class=\"swatch {shade}\">{letter or '&nbsp;'}</span>")

    def told_owners(self, memory, words):
        rows = []
        for owner, size in memory.owners.items():
            differing = sum(part.owner == owner and part.has(word) for part in memory.parts for word in words)
            row = (self.swatch(owner), memory.whole_name(owner), size)
            rows.append((*row, differing) if len(self.memories) > 1 else row)
        return table("Whose the words are", (*OWNERS, DIFFER) if len(self.memories) > 1 else OWNERS, rows)

    def levels(self, memory):
        """How full the transient areas are, and how full the journal ever was."""
        words = memory.image.words
        reset, deselect = memory.image.areas()
        levels = (("transient cells that a reset clears", words[RESET_AREA], reset), ("transient cells that a deselection clears", words[DESELECT_AREA], deselect),
                  ("the journal's highest mark, in entries", memory.image.highest_mark(), memory.image.capacity))
        return table("How full the rest is", LEVELS, [(what, taken, whole, meter(taken, whole)) for what, taken, whole in levels])

    def told_parts(self, memory, owner, words):
        parts = [part for part in memory.parts if part.owner == owner]
        differing = [sum(part.has(word) for word in words) for part in parts]
        rows = [(code(part.what), part.first, part.size, *([number] if words else [])) for part, number in zip(parts, differing)]
        heads = ("what", "first word", "words", *([DIFFER] if words else []))
        return (f"<details><summary>{self.swatch(owner)} {escaped(memory.whole_name(owner))}, {memory.owners[owner]} words</summary>\n"
                + table("", heads, rows) + "</details>")

    # ---- two images

    def told_changes(self):
        """The part about what differs between two images."""
        first, second = (memory.image.name for memory in self.memories)
        rows = [(f"@{record['object']}" if "object" in record else f"word {record['word']}", code(self.place(record)), code(record["was"]), code(record["is"])) for record in self.changed]
        rows += [(f"@{one['at']}", code(name), code(was), code(now)) for one, other in self.packages for name, was, now in self.statics(one, other)]
        alone = []
        for record in self.against:
            if record["record"] != "changed" and not any(record in pair for pair in self.packages):
                memory = self.memories[record.get("only") == "second"]
                alone.append((first if record.get("only") == "first" else second, record["record"], told_alone(record, memory)))
        return ("<section id=\"differs\"><h2>What differs</h2>\n" + table("Words with another value", self.heads, rows)
                + table("What stands in one alone", ("image", "what", "it is"), alone) + "</section>")

    def statics(self, one, other):
        """The static fields of a package that differ: their names, and what they say in both images."""
        memory = self.memories[0]
        was, now = (memory.holders.static_values(memory.aids.get(one["number"]), record["static_image"]) for record in (one, other))
        return [(name, was[name], now[name]) for name in was if was[name] != now[name]]

    def place(self, record):
        return self.memories[0].holders.cell(record["object"], record["class"], record["cell"]) if "object" in record else ""


def pairs_of_packages(against):
    """The packages that stand at one place in both images, and whose static images differ alone."""
    records = [record for record in against if record["record"] == "package words"]
    like = ("number", "at", "words", "components")
    return [(one, other) for one in records for other in records if one.get("only") == "first" and other.get("only") == "second"
            and all(one[key] == other[key] for key in like) and len(one["static_image"]) == len(other["static_image"])]


def told_alone(record, memory):
    """What stands in one image alone."""
    kind = record["record"]
    if kind == "object":
        return f"{memory.told_object(record)}, of {memory.whole_name(record['owner'])}"
    if kind == "package words":
        return f"number {record['number']}, {record['words']} words from word {record['at']}"
    if kind == "heap":
        return f"the first free word is {record['top']}, {record['free']} are free; of the transient cells {record['reset']} and {record['deselect']} are taken"
    if kind == "count":
        return f"{record['count']} of {record['most']} in the {record['of']}" if "most" in record else f"{record['count']} {record['of']}"
    if kind == "entry":
        place = memory.holders.cell(record["object"], record["class"], record["cell"]) if "object" in record else f"word {record['word']}"
        return f"number {record['number']} of the journal: {place} was {record['was']}"
    return ", ".join(f"{key.replace('_', ' ')} {value}" for key, value in record.items() if key not in ("record", "only"))
