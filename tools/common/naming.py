"""What a map of packages adds to what jcard tells: files and lines of the Java source, and the names of fields."""
import re

OF_PACKAGE = re.compile(r"\b([0-9A-F]{2,32})\.(\d+)\b")
FRAME = re.compile(r"\bat ([0-9A-F]+) offset (\d+) in (method \d+|\S+?)( line \d+| \([^() ]+:\d+\))?(: invoke\w+ method \d+)?(?=[:, ]|$)")
CALL = re.compile(r"(: invoke\w+ )method (\d+)")
CELL = re.compile(r"@(\d+) ([0-9A-F]+\.\d+) \[(\d+)\]")
CELLS = re.compile(r"@(\d+) ([0-9A-F]+\.\d+)( of .*, length \d+): (.+)")


class Names:
    """The names of the packages of a map."""

    def __init__(self, packages):
        self.packages = packages

    def source(self, aid, offset):
        """The file and the line of an instruction, as in purse/Purse.java:109; None where the map does not tell them."""
        package = self.packages.get(aid)
        found = package.place(offset) if package else None
        return f"{found[0]}:{found[1]}" if found else None

    def method(self, frame):
        """The name of a frame's method, where it was told by its offset and the map has it."""
        package = self.packages.get(frame.get("package"))
        found = package.method_at(frame["offset"]) if package else None
        return found.name if found and frame.get("method") == f"method {found.offset}" else None

    def class_name(self, told):
        """The name of a class that is told as AID.NUMBER; else the word as it is told."""
        found = OF_PACKAGE.fullmatch(told.removesuffix("[]"))
        package = self.packages.get(found[1]) if found else None
        own = package.classes.get(int(found[2])) if package else None
        return told.replace(found[0], own.name) if own else told

    def field(self, told, cell):
        """The name of a cell of an instance, as CLASS.FIELD; None where the map does not tell it."""
        found = self.typed_field(told, cell)
        return found[1] if found else None

    def typed_field(self, told, cell):
        """The type and the name of a cell of an instance of a class that is told as AID.NUMBER; None where the map does not tell them."""
        found = OF_PACKAGE.fullmatch(told)
        package = self.packages.get(found[1]) if found else None
        return package.typed_field(int(found[2]), cell) if package else None

    def added(self, record):
        """A record, with what the map adds to it."""
        frames = [*record.get("frames", ()), *([record["frame"]] if "offset" in record.get("frame", ()) else ())]
        for frame in [*frames, *(record.get("instructions", ()) if record["record"] in ("trace", "faults") else ())]:
            source, method = self.source(frame.get("package"), frame["offset"]), self.method(frame)
            if source:
                frame["source"] = source
            if method:
                frame["method"] = method
        for change in [*record.get("changes", ()), record]:
            if "class" in change:
                change["class_name"] = self.class_name(change["class"])
            field = self.field(change["class"], change["cell"]) if "cell" in change else None
            if field:
                change["field"] = field
        return record

    # ---- lines of text

    def text(self, line):
        """A line that jcard tells, with what the map names in place of offsets and numbers."""
        line = FRAME.sub(self.named_frame, line)
        line = CELLS.sub(self.named_cells, line)
        line = CELL.sub(lambda found: f"@{found[1]} {self.field(found[2], int(found[3])) or f'{found[2]} [{found[3]}]'}", line)
        return OF_PACKAGE.sub(lambda found: self.class_name(found[0]), line)

    def named_frame(self, found):
        aid, offset, method, line, call = found.groups()
        source = self.source(aid, int(offset))
        told = self.method({"package": aid, "offset": int(offset), "method": method}) or method
        place = f"at {source} in {told}" if source else f"at {aid} offset {offset} in {told}{line or ''}"
        return place + (self.named_call(aid, call) if call else "")

    def named_call(self, aid, call):
        """A call of a method of the same package that is told by its offset."""
        found = CALL.fullmatch(call)
        package = self.packages.get(aid)
        named = next((each.name for each in package.methods if each.offset == int(found[2])), None) if found and package else None
        return f"{found[1]}{named}" if named else call

    def named_cells(self, found):
        """The cells of an instance, each behind the name of its field."""
        fields = [self.field(found[2], cell) for cell in range(len(found[4].split()))]
        if not any(fields):
            return found[0]
        cells = (f"{field.rpartition('.')[2]} {value}" if field else value for field, value in zip(fields, found[4].split()))
        return f"@{found[1]} {self.class_name(found[2])}{found[3]}: {', '.join(cells)}"
