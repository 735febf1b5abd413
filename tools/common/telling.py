"""What jcard tells, as records: dictionaries with the key "record", one for each thing that a text says. docs/FORMATS.md, TEARING.md and
DEBUGGING.md say what the texts mean, integrations/pages/README.md which records there are. A line of no known form becomes a record "text"."""
import re

FRAME = re.compile(r"  at (?:([0-9A-F]+|run code) )?offset (\d+)(?: in (.+?)(?: line (\d+)| \(([^() ]+):(\d+)\))?)?(?:: (\S+)(?: (.*))?)?")
TOP = re.compile(r"(.*), (the stack is empty|top (.*))")
WHY = re.compile(r"why: line (\d+): (.*)")
WRITE = re.compile(r"why: line (\d+), cut after (\d+): the write of word (\d+)(, by the runtime environment)?")
BREAK = re.compile(r"break: line (\d+)")
HELD = re.compile(r"  (local|static) (\S+): (.*)")
STACK = re.compile(r"  stack: (.*)")
NAME = re.compile(r" \([^() ]+(?:, [^() ]+)?\)")
REASON = re.compile(r"(\w+) with reason ([0-9A-F]{4})(?: \((\w+)\))?")
COST = re.compile(r"  (\d+) instructions?, (\d+) word writes?, up to (\d+) of (\d+) cells, (\d+) free words")
FIREWALL = re.compile(r"  firewall rule (\d+): (.*), by code of (.*), the object is of (.*)")
COMPONENT = re.compile(r"  component (\d+)(?: (did not come|has another size than the Directory tells)|, (wrong at|which ends at) offset (\d+) from its tag)")
IMPORTED = re.compile(r"  package ([0-9A-F]+)")
POOL = re.compile(r"  entry (\d+): (?:package ([0-9A-F]+)|a package that is not imported), class (\d+)(?: \((\w+)\))?(?:, token (\d+))?(?:: (.+))?")
ASKED = re.compile(r"  asked for (\d+) (.*), (\d+) left")
CHANGE = re.compile(r"(?:@(\d+) (\S+) \[(\d+)\](?: \([^()]*\))?|word (\d+)(?: \(([^()]*)\))?) (\S+)>(\S+)")
HIDDEN_CHANGE = re.compile(r"@(\d+) (\S+) \[(\d+)\] not shown")
CUTS = re.compile(r"cut after (\d+)(?:\.\.(\d+))?: (.*)")
UNCUT = re.compile(r"(?:cut after (\d+): )?no cut, answer (\S+): (.*)")
STANDING = re.compile(
    r"(?:(.*) )?(as before|as after|with other answers|changed: word (\d+)(?: \([^()]*\))? was (\d+) and is (\d+)( by non-atomic calls)?)(?:, (\d+) words? lost)?( but for PIN tries)?(?:, (\d+) words? lost)?")
OF_LINE = re.compile(r"line (\d+): ([0-9A-Fa-f]+)(?: = (\S+))?: (.*)")
TORN = re.compile(r"NOT all or nothing: first at cut (\d+)(, by non-atomic calls)?")
WHOLE = re.compile(r"all or nothing( but for PIN tries)?: (\d+) cuts?, (.*?)(?:, at most (\d+) words? lost)?")
UNWRITTEN = re.compile(r"no write: answered (\S+)")
RECOVERED = re.compile(r"no recovery made a difference: (\d+) ways?, (\d+) deep")
UNRECOVERED = re.compile(r"a recovery made a difference: first at cut (\d+), recoveries cut after (.*)")
PART = re.compile(r"cut after (\d+): (?:recoveries (\d+) (alike|\d+(?: \d+)*), )?(.*), (\d+) words? lost, answers ?(.*)")
SWEEP = re.compile(r"sweep ([0-9a-f]+)(?: (each)| (faults)| recovery (\d))?")
SHARE = re.compile(r"share (\d+): of (\d+), (NOT )?all or nothing")
FAULT = r"(skip|turn|zero) (\d+)"
SECOND = r"(?:, then (skip|turn|zero) (\d+) later)?"
FAULTS = re.compile(rf"{FAULT}(?:[.][.](\d+))?{SECOND}: (.*)")
CAME = re.compile(r"(.*?), answer (\S+): (.*)")
SAME = "as without a fault"
STRUCK_AT = re.compile(r"  (\d+)( at .*)")
UNFAULTED = re.compile(r"no fault, answer (\S+): (.*)")
ATTACKED = re.compile(
    rf"(?:none accepted: (\d+) faults?|ACCEPTED: (\d+) of (\d+) faults?, first {FAULT}{SECOND})(?:, (\d+) changed in silence, first {FAULT}{SECOND})?")
PART_SECOND = re.compile(r"(\w+) (\d+)")
COUNT = re.compile(r"(words|journal|packages|applets) (\d+)(?: of (\d+))?")
PACKAGE = re.compile(r"package (\d+) ([0-9A-F]+) (\d+)\.(\d+)")
APPLET = re.compile(r"applet (\d+) ([0-9A-F]+) package (\d+)")
HEAP = re.compile(r"top (\d+), free (\d+) words?, reset area (\d+) of (\d+), deselect area (\d+) of (\d+)")
ENTRY = re.compile(r"entry (\d+): word (\d+) was (\d+)(?: @(\d+) (\S+) \[(\d+)\])?")
RECORD = re.compile(r"package (\d+): @(\d+), (\d+) words?, components ([\d: ]*)(?:, static image ?((?:@\d+|null|[0-9A-F]{4}| )*))?")
REGISTERED = re.compile(r"applet (\d+): AID object @(\d+), instance (?:@(\d+)|null)")
OBJECT = re.compile(r"@(\d+) (\S+) of (.*?), length (\d+)(?:, (reset|deselect) area from (\d+))?(?::(?: (.*))?)?")
FURTHER = re.compile(r"(cannot be read further)")
PIN = re.compile(r"tries (\d+) of (\d+), length (\d+) of (\d+), value (@\d+|null)")
KEY = re.compile(r"type ([0-9A-Z_]+)(?:, (\d+) bits, (set|not set))?, key (@\d+|null)")
HIDDEN = "key bytes, not shown"
ENGINE = re.compile(r"algorithm (\d+)(?:, key (@\d+|null), mode (\d+))?, holds (nothing), state (@\d+|null)")


def whole(pattern, line):
    """The groups of a pattern that is the whole line, numbers without zeros in front as such; None where it is not."""
    found = pattern.fullmatch(line)
    return [int(each) if each and re.fullmatch("0|[1-9][0-9]*", each) else each for each in found.groups()] if found else None


def text_record(line):
    if line.startswith("jcard: "):
        return {"record": "refused", "text": line.removeprefix("jcard: ")}
    return {"record": "text", "text": line}


# ---- run

def answers(lines):
    """The records of what `run` prints."""
    for number, line in enumerate(lines, 1):
        known = re.fullmatch(r"([0-9A-F]{2}){2,}|ready|down|armed \d+", line)
        yield {"record": "answer", "number": number, "answer": line} if known else text_record(line)


def frame(line):
    """A frame, or an instruction of a trace."""
    found = FRAME.fullmatch(line)
    if not found:
        return None
    aid, offset, method, alone, file, of_file, mnemonic, used = found.groups()
    java = alone or of_file
    made = {"package": aid, "offset": int(offset), "method": method, "line": int(java) if java else None, "source": f"{file}:{java}" if file else None, "mnemonic": mnemonic}
    made["callee" if (mnemonic or "").startswith("invoke") else "operand"] = used
    return {key: value for key, value in made.items() if value is not None}


def traced(line):
    """An instruction of a trace: a frame, and the top of the stack that it found."""
    found = TOP.fullmatch(line)
    made = frame(found[1]) if found else frame(line)
    if made and found:
        made["top"] = found[3] or "empty"
    return made


def why(line):
    """The record that the first line of a cause begins."""
    number, cause = whole(WHY, line)
    made = {"record": "why", "line": number, "cause": cause}
    ended = re.fullmatch(r"(.*) in (install|select|process|run code)(: .*)?", cause)
    if ended:
        made.update(cause=ended[1] + (ended[3] or ""), method=ended[2])
    reason = REASON.fullmatch(made["cause"])
    if reason:
        made.update(exception=reason[1], reason=reason[2], **({"reason_name": reason[3]} if reason[3] else {}))
    return {**made, "frames": []}


def add_to_why(record, line):
    """Adds what a further line says of a cause."""
    step, cost, rule, asked = frame(line), whole(COST, line), whole(FIREWALL, line), whole(ASKED, line)
    if step:
        record["frames"].append(step)
    elif cost:
        record.update(zip(("instructions", "writes", "cells", "most_cells", "free"), cost))
    elif rule:
        record["firewall"] = {"rule": rule[0], "access": rule[1], "code_of": str(rule[2]), "object_of": str(rule[3])}
    elif asked:
        record["asked"] = dict(zip(("number", "of", "left"), asked))
    else:
        add_to_load(record, line)


def add_to_load(record, line):
    """Adds what a further line says of a load that was refused."""
    component, imported, entry = whole(COMPONENT, line), IMPORTED.fullmatch(line), whole(POOL, line)
    if component:
        tag, state, how, offset = component
        record["component"] = {"tag": tag, "fault": state or how.removesuffix(" at"), **({} if offset is None else {"offset": offset})}
    elif imported:
        record["import"] = imported[1]
    elif entry:
        pairs = zip(("number", "package", "class", "class_name", "token", "member"), entry)
        record["entry"] = {key: str(value) if key == "package" else value for key, value in pairs if value is not None}
    else:
        record.setdefault("more", []).append(line.strip())


def add_to_trace(record, line):
    """Adds what a further line says of a trace."""
    left = re.fullmatch(r"  (after|and) (\d+) (?:more )?instructions?", line)
    step = traced(line)
    if left:
        record["before" if left[1] == "after" else "after"] = int(left[2])
    elif step:
        record["instructions"].append(step)
    else:
        record.setdefault("more", []).append(line.strip())


def add_to_write(record, line):
    """Adds the instruction that makes a word write."""
    record["frame"] = frame(line) or {"text": line.strip()}


def add_to_break(record, line):
    """Adds what a further line says of an arrival: a frame, a local, the stack or a static field."""
    held, stack, step = HELD.fullmatch(line), STACK.fullmatch(line), frame(line)
    if held:
        record["locals" if held[1] == "local" else "statics"][held[2]] = held[3]
    elif stack:
        record["stack"] = [] if stack[1] == "empty" else re.findall(r"return address \d+|\S+", stack[1])
    elif step:
        record["frames"].append(step)
    else:
        record.setdefault("more", []).append(line.strip())


FURTHER_LINES = {"why": add_to_why, "trace": add_to_trace, "write": add_to_write, "break": add_to_break}


def begun(line):
    """The record that a line begins, to which further lines add; None where it begins none."""
    write, stop, trace = WRITE.fullmatch(line), BREAK.fullmatch(line), re.fullmatch(r"trace: line (\d+)", line)
    if write:
        return {"record": "write", "line": int(write[1]), "cut": int(write[2]), "word": int(write[3])}
    if stop:
        return {"record": "break", "line": int(stop[1]), "frames": [], "locals": {}, "stack": [], "statics": {}}
    if trace:
        return {"record": "trace", "line": int(trace[1]), "instructions": []}
    return why(line) if WHY.fullmatch(line) else None


def causes(lines):
    """The records of what `run --why`, `--trace` and `--break` and `tear --why` tell on standard error."""
    record = None
    for line in lines:
        if record and line.startswith("  "):
            FURTHER_LINES[record["record"]](record, line)
            continue
        if record:
            yield record
        record = begun(line)
        if not record:
            yield text_record(line)
    if record:
        yield record


# ---- tear

def changes(text):
    """The changes at the end of a text, and what stands before them."""
    found, first = [], len(text)
    for match in CHANGE.finditer(text):
        at, kind, cell, word, static, was, now = match.groups()
        first = min(first, match.start())
        place = {"object": int(at), "class": kind, "cell": int(cell)} if at else {"word": int(word), **({"static": static} if static else {})}
        found.append({**place, "was": was, "is": now})
    return text[:first].strip(), found


def probe(text):
    """What the probe was answered."""
    return re.findall(r"armed \d+|\S+", text)


def standing(text):
    """What a cut left: the probe's answers, the words that changed, and how that stands."""
    found = whole(STANDING, text)
    if not found:
        return None
    before, name, word, was, now, non_atomic, lost, tries, lost_too = found
    told, changed = changes(str(before if before is not None else ""))
    made = {"answers": probe(told), "standing": name.partition(":")[0], "lost": lost or lost_too or 0, "but_for_pin_tries": tries is not None}
    if word is not None:
        made["first_change"] = {"word": word, "was": was, "is": now}
    if non_atomic:
        made["by_non_atomic_calls"] = True
    return {**made, "changes": changed} if changed else made


def verdict(text):
    """What is told of all cuts of a command."""
    torn, told, unwritten = whole(TORN, text), whole(WHOLE, text), whole(UNWRITTEN, text)
    if torn:
        return {"record": "verdict", "verdict": "torn", "cut": torn[0], **({"by_non_atomic_calls": True} if torn[1] else {})}
    if told:
        tries, cuts, how, lost = told
        return {"record": "verdict", "verdict": "all or nothing", "cuts": cuts, "how": how, "but_for_pin_tries": tries is not None, "lost": lost or 0}
    if unwritten:
        return {"record": "verdict", "verdict": "no write", "response": str(unwritten[0])}
    if text == "the card is down at the command":
        return {"record": "verdict", "verdict": "down"}
    recovered, unrecovered = whole(RECOVERED, text), whole(UNRECOVERED, text)
    if recovered:
        return {"record": "recoveries", "made_a_difference": False, "ways": recovered[0], "deep": recovered[1]}
    if unrecovered:
        return {"record": "recoveries", "made_a_difference": True, "cut": unrecovered[0], "after": [int(each) for each in str(unrecovered[1]).split()]}
    return None


def sweep_record(found):
    made = {"record": "sweep", "checksum": found[1]}
    made.update({key: True for key, word in (("each", found[2]), ("faults", found[3])) if word})
    return {**made, "recovery": int(found[4])} if found[4] else made


def share_record(found):
    return {"record": "share", "number": int(found[1]), "of": int(found[2]), "all_or_nothing": found[3] is None}


def of_command(found, told):
    """What is told of the command in a line of the script, by `--each`."""
    answer = {"answer": found[3]} if found[3] else {}
    return {**told, "line": int(found[1]), "command": found[2], **answer} if told else text_record(found[0])


def torn_line(line):
    """The record of a line of `tear`."""
    part, sweep, share = PART.fullmatch(line), SWEEP.fullmatch(line), SHARE.fullmatch(line)
    if part:
        told, changed = changes(part[6])
        left = {**standing(part[4]), "lost": int(part[5]), "answers": probe(told), **({"changes": changed} if changed else {})}
        recovered = {} if part[2] is None else {"ways": int(part[2]), **({} if part[3] == "alike" else {"unlike": [int(each) for each in part[3].split()]})}
        return {"record": "cuts", "first": int(part[1]), "last": int(part[1]), **left, **recovered}
    if sweep:
        return sweep_record(sweep)
    if share:
        return share_record(share)
    cuts, uncut, of_line = CUTS.fullmatch(line), UNCUT.fullmatch(line), OF_LINE.fullmatch(line)
    if uncut:
        left = standing(uncut[3])
        after = {} if uncut[1] is None else {"after": int(uncut[1])}
        return {"record": "uncut", "response": uncut[2], **after, **left} if left else text_record(line)
    if cuts:
        left = standing(cuts[3])
        return {"record": "cuts", "first": int(cuts[1]), "last": int(cuts[2] or cuts[1]), **left} if left else text_record(line)
    if of_line:
        return of_command(of_line, verdict(of_line[4]))
    return verdict(line) or text_record(line)


def tears(lines):
    """The records of what `tear` prints."""
    return map(torn_line, lines)


# ---- attack

def fault(model, at, second, later):
    """A fault, or two."""
    made = {"model": model, "first": int(at)}
    return made if second is None else {**made, "second_model": second, "later": int(later)}


def aftermath(text):
    """What a fault made of the command; None where the text is none."""
    came = CAME.fullmatch(text)
    left = standing(came[3]) if came else None
    if text == SAME:
        return {"outcome": SAME}
    return {"outcome": came[1].lower(), "response": came[2], **left} if left else None


def attack_verdict(text):
    """What is told of all faults of a command."""
    found = ATTACKED.fullmatch(text)
    if not found:
        return None
    none, accepted, faults, model, at, second, later, silent, *first_silent = found.groups()
    made = {"record": "attack verdict", "accepted": int(accepted or 0), "faults": int(none or faults), "changed_in_silence": int(silent or 0)}
    if accepted:
        made["first_accepted"] = fault(model, at, second, later)
    if silent:
        made["first_changed_in_silence"] = fault(*first_silent)
    return made


def part_of_attack(line):
    """A fault of a part of a sweep: five words."""
    model, at, second, came, where = line.split("\t")
    second = PART_SECOND.fullmatch(second)
    left = aftermath(came)
    if model not in ("skip", "turn", "zero") or not at.isdecimal() or left is None:
        return text_record(line)
    struck = [{"number": int(at), **(traced("  " + where) or {"text": where})}] if where else []
    return {"record": "faults", **fault(model, at, *(second.groups() if second else (None, None))), "last": int(at), **left, "instructions": struck}


def struck_line(line):
    """The record of a line of `attack`, but for instructions of a row."""
    faults, unfaulted, of_line, sweep, share = (form.fullmatch(line) for form in (FAULTS, UNFAULTED, OF_LINE, SWEEP, SHARE))
    if line.count("\t") == 4:
        return part_of_attack(line)
    if sweep:
        return sweep_record(sweep)
    if share:
        return share_record(share)
    if faults:
        model, first, last, second, later, came = faults.groups()
        left = aftermath(came)
        return {"record": "faults", **fault(model, first, second, later), "last": int(last or first), **left, "instructions": []} if left else text_record(line)
    if unfaulted:
        left = standing(unfaulted[2])
        return {"record": "no fault", "response": unfaulted[1], **left} if left else text_record(line)
    if of_line:
        return of_command(of_line, attack_verdict(of_line[4]) or verdict(of_line[4]))
    return attack_verdict(line) or text_record(line)


def attacks(lines):
    """The records of what `attack` prints."""
    record = None
    for line in lines:
        at = STRUCK_AT.fullmatch(line)
        if at and record and record["record"] == "faults":
            record["instructions"].append({"number": int(at[1]), **(traced(" " + at[2]) or {"text": at[2].strip()})})
            continue
        if record:
            yield record
        record = struck_line(line)
    if record:
        yield record


# ---- dump

def counts(found):
    name, count, most = found
    return {"record": "count", "of": name, "count": count, **({} if most is None else {"most": most})}


def package_record(found):
    number, at, words, components, image = found
    sizes = {int(tag): int(size) for tag, size in (each.split(":") for each in str(components).split())}
    image = str(image or "").split()
    return {"record": "package words", "number": number, "at": at, "words": words, "components": sizes, "static_image": image}


def object_record(found):
    at, kind, owner, length, area, place, cells = found
    made = {"record": "object", "at": at, "class": kind, "owner": str(owner), "length": length}
    if area:
        made.update(area=area, place=place)
    pin, key, engine = (whole(form, str(cells or "")) for form in (PIN, KEY, ENGINE))
    if pin:
        made["pin"] = dict(zip(("left", "limit", "length", "most", "value"), pin))
    elif key:
        kind, bits, is_set, array = key
        made["key"] = {"type": str(kind), **({} if bits is None else {"bits": bits, "set": is_set == "set"}), "array": array}
    elif engine:
        algorithm, key, mode, holds, state = engine
        made["engine"] = {"algorithm": algorithm, **({} if key is None else {"key": key, "mode": mode}), "holds": holds, "state": state}
    elif cells == HIDDEN:
        made["hidden"] = True
    elif kind == "AID" and re.fullmatch("(?:[0-9A-F]{2})*", str(cells)):
        made["aid"] = str(cells)
    elif cells is not None:
        made["cells"] = str(cells).split()
    return made


def named(record, *keys):
    """Makes a record of groups by their keys, without those that are not there."""
    return lambda found: {"record": record, **{key: value for key, value in zip(keys, found) if value is not None}}


DUMPED = (
    (COUNT, counts), (PACKAGE, lambda found: {"record": "package", "number": found[0], "aid": str(found[1]), "version": f"{found[2]}.{found[3]}"}),
    (APPLET, lambda found: {"record": "applet", "number": found[0], "aid": str(found[1]), "package": found[2]}),
    (HEAP, named("heap", "top", "free", "reset", "most_reset", "deselect", "most_deselect")),
    (ENTRY, named("entry", "number", "word", "was", "object", "class", "cell")), (RECORD, package_record),
    (REGISTERED, named("registered", "number", "aid_object", "instance")), (OBJECT, object_record), (FURTHER, lambda _: {"record": "cannot be read further"}))


def dumped_line(line):
    """The record of a line of `dump`, with the objects or without. What a map names stands in brackets, and is left out."""
    line = NAME.sub("", line)
    if line[:2] in ("- ", "+ "):
        return {**dumped_line(line[2:]), "only": "first" if line[0] == "-" else "second"}
    changed = CHANGE.fullmatch(line)
    if changed:
        return {"record": "changed", **changes(line)[1][0]}
    hidden = whole(HIDDEN_CHANGE, line)
    if hidden:
        return {"record": "changed", **dict(zip(("object", "class", "cell"), hidden)), "hidden": True}
    for pattern, made in DUMPED:
        found = whole(pattern, line)
        if found:
            return made(found)
    return text_record(line)


def dumps(lines):
    """The records of what `dump` prints, of one image or of two."""
    return map(dumped_line, lines)
