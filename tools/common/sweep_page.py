"""The page of a sweep of cuts: a strip of cells for each command, and behind each cell what the cut left, in terms of the Java source."""
import os

from .pages import Heads, Raw, code, escaped, figures, link, meter, page, table

STATES = {"before": ("B", "as before the command"), "after": ("A", "as after it"), "tries": ("T", "as before or after, but for PIN tries"),
          "changed": ("C", "changed: neither")}
TOUCHED = ("as before", "as after", "neither")
COMMANDS = Heads("commands", "line", "verdict", "answer", "command", "cuts left", "word writes", "instructions", "why refused")
CUTS = Heads("cuts", "cut", "the probe's answers", "left")
CHANGES = Heads("changes", "object", "what", "before", "after this cut", "without a cut", "state")
ANSWERS = Heads("answers", "asked", "before", "after this cut", "without a cut", "state")
FRAMES = Heads("frames", "source", "method", "instruction")


def standing_of(cut):
    """The kind of a cell."""
    if cut["standing"] not in ("as before", "as after"):
        return "changed"
    return "tries" if cut["but_for_pin_tries"] else cut["standing"].removeprefix("as ")


def told_standing(cut, places=None):
    """What a cut left, in the words of `tear`; with the name of the word, where the places of words are known."""
    lost = f", {cut['lost']} words lost" if cut["lost"] else ""
    first = cut.get("first_change")
    name = f" ({places.name(first['word'])})" if first and places else ""
    changed = f": word {first['word']}{name} was {first['was']} and is {first['is']}" if first else ""
    changed += " by non-atomic calls" if "by_non_atomic_calls" in cut else ""
    return cut["standing"] + changed + lost + (" but for PIN tries" if cut["but_for_pin_tries"] else "")


def told_verdict(command):
    """What is told of all cuts of a command, in the words of `tear`."""
    verdict = command.verdict
    if verdict["verdict"] == "torn":
        return f"NOT all or nothing: first at cut {verdict['cut']}" + (", by non-atomic calls" if "by_non_atomic_calls" in verdict else "")
    if verdict["verdict"] == "no write":
        return "no write"
    if verdict["verdict"] == "down":
        return "the card is down at the command"
    return ("all or nothing" + (" but for PIN tries" if verdict["but_for_pin_tries"] else "")
            + f": {verdict['cuts']} cut{'' if verdict['cuts'] == 1 else 's'}, {verdict['how']}")


def told_recoveries(record):
    """What is told of the recoveries that were cut after each cut of a command."""
    if record["made_a_difference"]:
        return f"<p class=\"bad\">A recovery made a difference: first at cut {record['cut']}, recoveries cut after {' '.join(map(str, record['after']))}.</p>"
    return f"<p>No recovery made a difference: {plural(record['ways'], 'way')}, {record['deep']} deep.</p>"


def cause_of(command):
    """Why a command was refused, in a line; and where."""
    if command.why is None:
        return "", ""
    return command.why["cause"], next((frame["source"] for frame in command.why["frames"] if "source" in frame), "")


def plural(number, what):
    return f"{number} {what}{'' if number == 1 else 's'}"


def mark(command):
    """The verdict in a few words, with a sign."""
    signs = {"torn": "<span class=\"bad\">&#x2717;&nbsp;torn</span>", "all or nothing": "<span class=\"good\">&#x2713;</span>&nbsp;all&nbsp;or&nbsp;nothing", "no write": "no&nbsp;write"}
    verdict = command.verdict["verdict"]
    return Raw(signs.get(verdict, escaped(verdict)))


def left_by(command):
    """How many cuts of a command left what, by their letters."""
    kinds = [standing_of(cut) for cut in command.cuts]
    return ", ".join(f"{kinds.count(kind)} {letter}" for kind, (letter, _) in STATES.items() if kind in kinds)


class Sources:
    """The Java files of a folder, for excerpts and for links into the listings of the page."""

    def __init__(self, folder, reached):
        self.reached, self.lines = reached, {}
        self.numbers = {name: number for number, name in enumerate(sorted(reached), 1)}
        for name in reached if folder else ():
            if os.path.exists(os.path.join(folder, name)):
                with open(os.path.join(folder, name), encoding="utf-8", errors="replace") as file:
                    self.lines[name] = file.read().splitlines()

    def line(self, source):
        """The text of a line that is told as purse/Purse.java:109; None where it is not there."""
        name, _, number = source.rpartition(":")
        lines = self.lines.get(name, ())
        return lines[int(number) - 1] if number.isdigit() and 0 < int(number) <= len(lines) else None

    def place(self, source):
        """A line of the source, with a link to it in the listing where there is one."""
        name, _, number = source.rpartition(":")
        return link(f"source-{self.numbers[name]}-{number}", code(source)) if self.line(source) is not None else code(source)

    def excerpt(self, source):
        text = self.line(source)
        return f"<div class=\"excerpt\"><b>{source.rpartition(':')[2]}</b>{escaped(text.strip())}</div>" if text else ""


class SweepPage:
    """What is written of a sweep: its commands, with the comments of the script above them, the lines that the probe asks, what was
    reached, and the Java files."""

    def __init__(self, commands, script, asked, reached, folder):
        self.commands, self.script, self.asked, self.reached, self.sources = commands, script, asked, reached, Sources(folder, reached)

    def made(self, script, image):
        torn = [command for command in self.commands if command.is_torn]
        verdict = (f"<p class=\"verdict bad\">&#x2717; NOT all or nothing: {', '.join(link(f'line-{command.line}', f'line {command.line}') for command in torn)}.</p>" if torn
                   else "<p class=\"verdict\">&#x2713; Each command is all or nothing.</p>")
        others = [link(f"line-{command.line}", f"line {command.line}") for command in self.commands if command.recovers_otherwise]
        verdict += f"<p class=\"verdict bad\">&#x2717; A recovery made a difference: {', '.join(others)}.</p>" if others else ""
        links = [link("commands", "Commands"), *([link("coverage", "What the script reached")] if self.reached else [])]
        return page(script, f"jcard: the power is cut in each command, on the card of {image}", verdict, self.told_figures(torn), f"<nav aria-label=\"parts of this page\">{' '.join(links)}</nav>",
                    self.overview(), *map(self.told_command, self.commands), self.told_coverage() if self.reached else "", stacked=(COMMANDS, CUTS, CHANGES, ANSWERS, FRAMES))

    def told_figures(self, torn):
        counts = [count for source in self.reached.values() for count in source.lines.values()]
        reached = [("lines reached", f"{sum(count > 0 for count in counts)} of {len(counts)}")] if counts else []
        return figures(("commands", len(self.commands)), ("cuts", sum(len(command.cuts) for command in self.commands)), ("commands torn", len(torn)),
                       ("commands refused", sum(bool(command.why) for command in self.commands)), *reached)

    # ---- all commands

    def overview(self):
        rows = []
        for command in self.commands:
            cause, source = cause_of(command)
            where = Raw(f"{escaped(cause)} at {self.sources.place(source)}") if source else cause
            rows.append((link(f"line-{command.line}", command.line), mark(command), code(command.answer or "down"), code(command.text), left_by(command), len(command.cuts),
                         command.instructions, where))
        keys = "".join(f"<span><span class=\"key {kind}\">{letter}</span>{escaped(told)}</span>" for kind, (letter, told) in STATES.items())
        return ("<section id=\"commands\"><h2>Commands</h2>\n"
                + table("", COMMANDS, rows)
                + f"<p class=\"legend\"><span>A cell is a cut, before one word write. It left</span>{keys}</p>\n"
                + "<p class=\"quiet\">Tab comes to a cell, and Enter opens it.</p></section>")

    # ---- a command

    def told_command(self, command):
        chips = [f"answer {command.answer}" if command.answer else "down", plural(len(command.cuts), "word write"), plural(command.instructions, "instruction")]
        kind = {"torn": " bad", "all or nothing": " good"}.get(command.verdict["verdict"], "")
        recoveries = "".join(map(told_recoveries, command.recoveries)) if command.cuts else ""
        return (f"<section id=\"line-{command.line}\"><h2>Line {command.line}: {code(command.text)}</h2>\n{self.remarks(command)}"
                f"<p><span class=\"chip{kind}\">{escaped(told_verdict(command))}</span>{''.join(f'<span class=chip>{escaped(chip)}</span>' for chip in chips)}</p>\n"
                + self.told_cause(command) + self.told_torn(command) + self.strip(command)
                + "\n".join(self.detail(command, number, cut) for number, cut in enumerate(command.cuts)) + self.told_rows(command) + recoveries + "</section>")

    def remarks(self, command):
        """The comments above a command, but for those that say an answer."""
        above = []
        for line in reversed(self.script[:command.line - 1]):
            if not line.startswith("#"):
                break
            above.insert(0, line.removeprefix("#").strip())
        text = " ".join(each for each in above if not each.startswith("="))
        return f"<p class=\"quiet\">{escaped(text)}</p>\n" if text else ""

    def told_torn(self, command):
        """The lines before whose writes a cut leaves neither all nor nothing."""
        torn = [write.place for write, cut in zip(command.writes, command.cuts) if standing_of(cut) == "changed"]
        if not torn:
            return ""
        places = [self.sources.place(place) for place in dict.fromkeys(filter(None, torn))]
        return f"<p>Left neither as before nor as after by a cut before the write at {', '.join(places)}.</p>\n" if places else ""

    def strip(self, command):
        cells = []
        for number, cut in enumerate(command.cuts):
            kind = standing_of(cut)
            title = f"cut after {plural(number, 'word write')}: {told_standing(cut)}"
            cells.append(f"<a class=\"{kind}\" href=\"#cut-{command.line}-{number}\" title=\"{escaped(title)}\">{STATES[kind][0]}<small>{number}</small></a>")
        return f"<div class=\"strip\" role=\"group\" aria-label=\"the cuts of line {command.line}\">{''.join(cells)}</div>\n" if cells else ""

    def told_rows(self, command):
        """What the text of `tear` tells, row by row."""
        if not command.cuts:
            return ""
        rows, kinds = [], []
        for row in command.rows:
            if row["record"] not in ("cuts", "uncut"):
                continue
            which = (f"no cut, answer {row['response']}" if row["record"] == "uncut" else
                     f"cut after {row['first']}" if row["first"] == row["last"] else f"cut after {row['first']}..{row['last']}")
            rows.append((which, code(" ".join(row["answers"])), told_standing(row, command.places)))
            kinds.append("" if standing_of(row) == "changed" else "same")
        return f"<details open><summary>What all cuts left</summary>\n{table('', CUTS, rows, kinds)}</details>"

    # ---- a cut

    def detail(self, command, number, cut):
        """What stands behind a cell."""
        kind = standing_of(cut)
        steps = [(number - 1, "the cut before")] * (number > 0) + [(number + 1, "the next cut")] * (number + 1 < len(command.cuts))
        links = [link(f"cut-{command.line}-{to}", text) for to, text in steps] + [link(f"line-{command.line}", "close")]
        return (f"<div class=\"detail\" id=\"cut-{command.line}-{number}\"><h3>Line {command.line}, cut after {number} of {plural(len(command.cuts), 'word write')}</h3>\n"
                f"<p><span class=\"key {kind}\">{STATES[kind][0]}</span>Left: {escaped(told_standing(cut, command.places))}.</p>\n"
                + (self.told_write(command.writes[number]) if number < len(command.writes) else "")
                + self.told_changes(command, cut) + self.told_probe(command, cut) + f"<nav aria-label=\"other cuts\">{' '.join(links)}</nav></div>")

    def told_write(self, write):
        """The write that a cut refused."""
        change = f", <code>{escaped(write.change[0])}</code> to <code>{escaped(write.change[1])}</code>" if write.change else ""
        method = f" in {code(write.frame['method'])}" if write.frame and "method" in write.frame else ""
        place = f"at {self.sources.place(write.place)}{method}" if write.place else "by the runtime environment"
        return (f"<p>The write that was refused: {code(write.what)}{change} (word {write.word}), made {place}.</p>\n"
                + (self.sources.excerpt(write.source) if write.source else ""))

    def told_changes(self, command, cut):
        """Each word that the command changes, or that the cut left as another: before, after the cut, and where nothing was cut."""
        uncut = {key_of(change): change for change in (command.uncut or {}).get("changes", ())}
        left = {key_of(change): change for change in cut.get("changes", ())}
        if not left:
            return "<p>No word differs from before the command.</p>\n"
        rows, kinds = [], []
        for key in sorted({**uncut, **left}):
            change = left.get(key) or uncut[key]
            was, now = change["was"], left[key]["is"] if key in left else change["was"]
            then = uncut[key]["is"] if key in uncut else was
            state = TOUCHED[0] if now == was else TOUCHED[1] if now == then else TOUCHED[2]
            rows.append((f"@{change['object']}" if "object" in change else f"word {change['word']}", code(self.named(command, change)),
                         *(code(self.value(command, change, told)) for told in (was, now, then)), state))
            kinds.append("same" if state == TOUCHED[0] else "")
        return table("What differs", CHANGES, rows, kinds)

    def named(self, command, change):
        if "object" not in change:
            return command.places.name(change["word"])
        pair = change["class"] in ("byte[]", "boolean[]") and len(change["is"]) == 4
        return command.places.holders.cell(change["object"], change["class"], change["cell"], 2 if pair else 1)

    def value(self, command, change, told):
        return command.places.holders.value(change["class"], change["cell"], told) if "class" in change else command.places.value(change["word"], int(told))

    def told_probe(self, command, cut):
        """The probe's answers, beside those before the command and those after it."""
        before, after = command.cuts[0]["answers"], (command.uncut or cut)["answers"]
        asked = self.asked if len(self.asked) == len(cut["answers"]) else [f"line {number}" for number in range(1, len(cut["answers"]) + 1)]
        if not len(before) == len(after) == len(cut["answers"]):
            return table("What the probe was answered", ("asked", "answer"), [tuple(map(code, pair)) for pair in zip(asked, cut["answers"])])
        rows = [(*map(code, (question, was, now, then)), TOUCHED[0] if now == was else TOUCHED[1] if now == then else TOUCHED[2])
                for question, was, now, then in zip(asked, before, cut["answers"], after)]
        return table("What the probe was answered", ANSWERS, rows, ["same" if was == then else "" for _, was, _, then, _ in rows])

    # ---- causes

    def told_cause(self, command):
        why = command.why
        if why is None:
            return ""
        more = [escaped(each) for each in why.get("more", ())]
        if "firewall" in why:
            rule = why["firewall"]
            more.append(f"Firewall rule {rule['rule']}: {escaped(rule['access'])}, by code of {escaped(rule['code_of'])}, the object is of {escaped(rule['object_of'])}.")
        if "asked" in why:
            more.append(f"Asked for {why['asked']['number']} {escaped(why['asked']['of'])}, {why['asked']['left']} left.")
        rows = [(self.sources.place(frame["source"]) if "source" in frame else "", code(frame.get("method", "")), code(f"{frame.get('mnemonic', '')} {frame.get('callee', '')}".strip()))
                for frame in why["frames"]]
        first = cause_of(command)[1]
        return (f"<p>Why refused: <span class=\"bad\">{escaped(why['cause'])}</span></p>\n" + "".join(f"<p>{each}</p>\n" for each in more)
                + (self.sources.excerpt(first) if first else "") + (table("Frames, the innermost first", FRAMES, rows) if rows else ""))

    # ---- coverage

    def told_coverage(self):
        rows = []
        for name, source in sorted(self.reached.items()):
            lines, methods = [count for count in source.lines.values()], [count for _, count, _ in source.methods]
            taken = [taken for _, _, _, ways in source.branches for taken in ways]
            rows.append((code(name), meter(sum(count > 0 for count in lines), len(lines)), *(f"{sum(count > 0 for count in counts)} of {len(counts)}" for counts in (lines, methods, taken))))
        missed = [(self.sources.place(f"{name}:{line}"), code(method)) for name, source in sorted(self.reached.items()) for line, count, method in source.methods if not count]
        return ("<section id=\"coverage\"><h2>What the script reached</h2>\n" + table("", ("file", "", "lines", "methods", "ways of branches"), rows)
                + table("Methods that were not reached", ("source", "method"), missed) + "".join(map(self.listing, sorted(self.sources.lines))) + "</section>")

    def listing(self, name):
        """A Java file: how often each line was carried out, and what cuts before its writes left."""
        source, number, cuts, rows = self.reached[name], self.sources.numbers[name], self.cuts_of(name), []
        for at, text in enumerate(self.sources.lines[name], 1):
            count = source.lines.get(at)
            kind = "" if count is None else " class=\"reached\"" if count else " class=\"missed\""
            mark = "" if count is None else str(count) if count else "&#x2717; 0"
            keys = "".join(f"<span class=\"key {kind}\" title=\"{escaped(STATES[kind][1])}\">{STATES[kind][0]}</span>" for kind in STATES if kind in cuts.get(at, ()))
            rows.append(f"<tr{kind} id=\"source-{number}-{at}\"><td class=\"number\">{at}</td><td class=\"number\">{mark}</td><td>{keys}</td><td><pre>{escaped(text)}</pre></td></tr>")
        head = "<thead><tr><th scope=\"col\">line</th><th scope=\"col\">times</th><th scope=\"col\">cuts</th><th scope=\"col\">source</th></tr></thead>"
        return f"<details><summary>{escaped(name)}</summary>\n<div class=\"wide\"><table class=\"listing\">{head}\n<tbody>\n" + "\n".join(rows) + "\n</tbody>\n</table></div></details>"

    def cuts_of(self, name):
        """Of each line of a file what the cuts before its word writes left."""
        found = {}
        for command in self.commands:
            for write, cut in zip(command.writes, command.cuts):
                if write.source and write.source.rpartition(":")[0] == name:
                    found.setdefault(int(write.source.rpartition(":")[2]), set()).add(standing_of(cut))
        return found


def key_of(change):
    """Which word a change is of."""
    return (change["object"], change["cell"]) if "object" in change else (change["word"], -1)
