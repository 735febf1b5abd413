"""Pages of HTML that stand alone: no server, no script, nothing from elsewhere. They are read by keyboard, without colour, by day and by night,
and in narrow windows."""
import html

STYLE = """\
:root { color-scheme: light dark; --paper: #f6f7f9; --card: #fff; --ink: #1b2027; --quiet: #566070; --rule: #d6dbe2; --head: #eef1f5; --link: #1b57b0;
  --good: #17663a; --good-paper: #def2e5; --bad: #a1121b; --bad-ink: #fff; --bad-paper: #fbe3e3; --warn: #6f4b00; --warn-paper: #fcefc8;
  --hatch: rgba(0, 0, 0, .13); --s1: #c9daf3; --s2: #f4dcae; --s3: #cbe8c8; --s4: #e6cdec; --s5: #c3e7e5; --s6: #f6cabc; --s7: #d9dbc0;
  --mono: ui-monospace, "DejaVu Sans Mono", Menlo, Consolas, monospace; --sans: system-ui, "Segoe UI", Roboto, "DejaVu Sans", sans-serif; }
@media (prefers-color-scheme: dark) { :root { --paper: #12161b; --card: #1a2027; --ink: #e7ebf0; --quiet: #a5b0be; --rule: #39424e; --head: #232b34;
  --link: #8cbcff; --good: #86dba6; --good-paper: #163726; --bad: #ff9d9d; --bad-ink: #2a0507; --bad-paper: #4a1c20; --warn: #f4d27e; --warn-paper: #3f3311;
  --hatch: rgba(255, 255, 255, .16); --s1: #2f4c75; --s2: #6b5220; --s3: #2d5c33; --s4: #5c3c66; --s5: #245a58; --s6: #713b2b; --s7: #55572f; } }
* { box-sizing: border-box; }
html { -webkit-text-size-adjust: 100%; }
body { font: 16px/1.5 var(--sans); margin: 0 auto; max-width: 76rem; padding: 1.5rem clamp(.8rem, 3vw, 2rem) 4rem; color: var(--ink); background: var(--paper); }
h1 { font-size: 1.7rem; line-height: 1.2; margin: 0 0 .6rem; overflow-wrap: anywhere; }
h2 { font-size: 1.2rem; line-height: 1.3; margin: 0 0 .5rem; overflow-wrap: anywhere; }
h3 { font-size: 1rem; margin: 1.1rem 0 .3rem; }
p { margin: .4rem 0; }
.kind { color: var(--quiet); font-size: .9rem; margin: 0 0 .2rem; }
.quiet { color: var(--quiet); }
section, .verdict { background: var(--card); border: 1px solid var(--rule); border-radius: 10px; padding: 1rem clamp(.8rem, 2vw, 1.3rem); margin: 1rem 0; }
section { scroll-margin-top: .6rem; }
.verdict { font-weight: 650; padding-block: .6rem; border-left: 6px solid var(--good); }
.verdict.bad { border-left-color: var(--bad); }
.good { color: var(--good); } .bad { color: var(--bad); font-weight: 650; }
nav { display: flex; flex-wrap: wrap; gap: .3rem 1rem; margin: .8rem 0; }
a { color: var(--link); text-underline-offset: 2px; }
:focus-visible { outline: 3px solid var(--link); outline-offset: 2px; border-radius: 4px; }
.figures { display: flex; flex-wrap: wrap; gap: .6rem; margin: 1rem 0; padding: 0; }
.figures div { background: var(--card); border: 1px solid var(--rule); border-radius: 10px; padding: .5rem .9rem; min-width: 7.5rem; flex: 1 1 auto; }
section .figures { margin: .6rem 0; } section .figures div { background: var(--head); border: 0; padding: .35rem .7rem; min-width: 4.6rem; }
.figures dt { color: var(--quiet); font-size: .82rem; } .figures dd { margin: 0; font-size: 1.3rem; font-weight: 650; font-variant-numeric: tabular-nums; }
section .figures dd { font-size: 1.05rem; }
.wide { overflow-x: auto; margin: .6rem 0; background: linear-gradient(to right, var(--card) 30%, transparent) 0 0 / 3rem 100% no-repeat local,
  linear-gradient(to left, var(--card) 30%, transparent) 100% 0 / 3rem 100% no-repeat local, linear-gradient(to right, var(--hatch), transparent) 0 0 / 1rem 100% no-repeat,
  linear-gradient(to left, var(--hatch), transparent) 100% 0 / 1rem 100% no-repeat; }
table { border-collapse: collapse; font-size: .92rem; font-variant-numeric: tabular-nums; }
caption { text-align: left; font-weight: 650; font-size: 1rem; padding: .5rem 0 .3rem; }
th, td { border-bottom: 1px solid var(--rule); padding: .32rem .8rem .32rem .45rem; text-align: left; vertical-align: top; }
thead th { background: var(--head); font-weight: 600; white-space: nowrap; }
td.number, th.number { text-align: right; white-space: nowrap; }
tr.same td { color: var(--quiet); }
code, pre { font-family: var(--mono); font-size: .88em; overflow-wrap: anywhere; } pre { margin: 0; overflow-wrap: normal; }
td code { overflow-wrap: normal; } td.long code { overflow-wrap: anywhere; }
h2 code { font-size: .92em; font-weight: 500; }
.excerpt { background: var(--head); border-radius: 6px; padding: .4rem .7rem; margin: .4rem 0; overflow-x: auto; font: .86rem/1.5 var(--mono); white-space: pre; }
.excerpt b { color: var(--quiet); font-weight: 400; margin-right: 1em; user-select: none; }
.chip { display: inline-block; border: 1px solid var(--rule); border-radius: 99px; padding: 0 .6rem; margin: 0 .25rem .2rem 0; font-size: .88rem; background: var(--head); }
.chip.bad { border-color: var(--bad); background: var(--bad-paper); } .chip.good { border-color: var(--good); background: var(--good-paper); }
.legend { display: flex; flex-wrap: wrap; gap: .3rem 1.1rem; font-size: .92rem; align-items: center; margin: .8rem 0; }
.strip { display: flex; flex-wrap: wrap; gap: 3px; margin: .7rem 0; }
.strip a, .key { display: inline-block; width: 2.15rem; text-align: center; border: 1px solid var(--quiet); border-radius: 5px; text-decoration: none;
  color: var(--ink); background: var(--card); font: 650 .95rem/1.35 var(--mono); padding: .1rem 0; }
.strip small { display: block; font: 400 .66rem/1.2 var(--sans); opacity: .85; }
.strip a:hover { outline: 2px solid var(--link); }
.key { width: 1.6rem; margin-right: .35rem; }
.after { background: var(--good-paper) !important; border-bottom-width: 3px !important; border-color: var(--good) !important; }
.tries { background: var(--warn-paper) !important; border: 1px dashed var(--warn) !important; }
.changed { background: var(--bad) !important; border-color: var(--bad) !important; color: var(--bad-ink) !important; }
.detail { display: none; border: 2px solid var(--link); border-radius: 8px; padding: .7rem 1rem; margin: .6rem 0; scroll-margin-top: 9rem; }
.detail:target { display: block; } .detail h3 { margin-top: .2rem; }
.detail nav { margin: .6rem 0 0; }
details { margin: .4rem 0; } summary { cursor: pointer; padding: .15rem 0; }
.listing td { border: 0; padding: 0 .6rem; line-height: 1.45; } .listing td.number { color: var(--quiet); font: .8rem/1.6 var(--mono); }
.listing tr.missed { background: var(--bad-paper); } .listing tr.missed td:nth-child(2) { font-weight: 700; color: var(--bad); }
.listing tr.reached td:nth-child(2) { color: var(--good); } .listing tr:target { outline: 2px solid var(--link); }
.listing .key { width: 1.25rem; margin-right: 2px; border-width: 1px !important; border-radius: 3px; padding: 0; font: 650 .74rem/1.15rem var(--mono); vertical-align: middle; }
.meter { position: relative; height: .7rem; min-width: 3.5rem; margin-top: .4rem; background: var(--head); border: 1px solid var(--quiet); border-radius: 99px; overflow: hidden; }
.meter i { display: block; height: 100%; background: var(--link); }
.pair { display: grid; grid-template-columns: repeat(auto-fit, minmax(min(100%, 25rem), 1fr)); gap: 1rem; margin: 1rem 0; } .pair section { margin: 0; min-width: 0; }
.bar { display: flex; height: 3rem; border: 1px solid var(--quiet); border-radius: 6px; overflow: hidden; margin: .35rem 0 0; background: var(--card); }
.bar span { flex: 1 1 0; min-width: 0; overflow: hidden; text-align: center; font: 600 .85rem/3rem var(--mono); border-right: 1px solid var(--quiet); }
.bar span:last-child { border-right: 0; }
.swatch { display: inline-block; width: 1.7rem; text-align: center; border: 1px solid var(--quiet); border-radius: 4px; font: 600 .85rem/1.45 var(--mono); }
.s1 { background: var(--s1); }
.s2 { background: repeating-linear-gradient(45deg, var(--hatch) 0 2px, transparent 2px 8px) var(--s2); }
.s3 { background: repeating-linear-gradient(0deg, var(--hatch) 0 1px, transparent 1px 7px) var(--s3); }
.s4 { background: repeating-linear-gradient(-45deg, var(--hatch) 0 2px, transparent 2px 8px) var(--s4); }
.s5 { background: repeating-linear-gradient(90deg, var(--hatch) 0 1px, transparent 1px 7px) var(--s5); }
.s6 { background: radial-gradient(var(--hatch) 1.5px, transparent 2px) 0 0 / 8px 8px var(--s6); }
.s7 { background: repeating-linear-gradient(45deg, var(--hatch) 0 1px, transparent 1px 5px) var(--s7); }
.ticks { position: relative; height: .75rem; margin: 0 0 .5rem; } .ticks i { position: absolute; top: 1px; width: 2px; height: .6rem; background: var(--bad); }
@media (max-width: 36rem) { .stacked, .stacked tbody { display: block; } .stacked thead { display: none; } .stacked caption { display: block; }
  .stacked tr { display: block; border-bottom: 1px solid var(--rule); padding: .4rem 0; } .stacked td:empty { display: none; }
  .stacked td, .stacked td.number { display: block; position: relative; border: 0; padding: .1rem .3rem .1rem 8rem; text-align: left; white-space: normal; overflow-wrap: anywhere; }
  .stacked td::before { position: absolute; left: .3rem; color: var(--quiet); font-size: .86rem; } .stacked code { overflow-wrap: anywhere; } }
"""


def escaped(text):
    return html.escape(str(text), quote=True)


class Heads:
    """The names of a table's columns; in a narrow window its cells stand below each other, each beside the name of its column."""

    def __init__(self, name, *heads):
        self.name, self.heads = name, heads

    def style(self):
        texts = ("".join(each if each.isalnum() or each in " '" else f"\\{ord(each):x} " for each in head) for head in self.heads)
        return "".join(f"  .{self.name} td:nth-child({at})::before {{ content: \"{text}\"; }}\n" for at, text in enumerate(texts, 1))


def page(title, kind, *parts, stacked=()):
    """A whole page: its title, of what kind it is, its parts, and the heads of those of its tables that can be stacked."""
    stacks = f"@media (max-width: 36rem) {{\n{''.join(heads.style() for heads in stacked)}}}\n" if stacked else ""
    body = "\n".join(part for part in parts if part)
    return (f"<!DOCTYPE html>\n<html lang=\"en\">\n<head>\n<meta charset=\"utf-8\">\n<meta name=\"viewport\" content=\"width=device-width, initial-scale=1\">\n"
            f"<title>{escaped(title)}</title>\n<style>\n{STYLE}{stacks}</style>\n</head>\n"
            f"<body>\n<header><p class=\"kind\">{escaped(kind)}</p>\n<h1>{escaped(title)}</h1></header>\n<main>\n{body}\n</main>\n</body>\n</html>\n")


class Raw(str):
    """Markup as it is."""


def markup(value):
    return value if isinstance(value, Raw) else escaped(value)


def code(text):
    return Raw(f"<code>{escaped(text)}</code>")


def cell(value, tag="td"):
    """A cell of a table; numbers stand at its right side."""
    kind = " class=\"number\"" if isinstance(value, int) else ""
    return f"<{tag}{kind}>{markup(value)}</{tag}>"


def table(caption, head, rows, kinds=()):
    """A table with the names of its columns, or a sentence where it has no row; perhaps with what kind each row is of."""
    of, head = (f" class=\"stacked {head.name}\"", head.heads) if isinstance(head, Heads) else ("", head)
    if not rows:
        return f"<p>{escaped(caption)}: none.</p>" if caption else ""
    kinds = [f" class=\"{kind}\"" if kind else "" for kind in kinds] or [""] * len(rows)
    lines = "\n".join(f"<tr{kind}>" + "".join(map(cell, row)) + "</tr>" for kind, row in zip(kinds, rows))
    numbers = [all(isinstance(row[at], int) for row in rows) for at in range(len(head))]
    sides = [" class=\"number\"" if number else "" for number in numbers]
    heads = "".join(f"<th scope=\"col\"{side}>{escaped(each)}</th>" for each, side in zip(head, sides))
    title = f"<caption>{escaped(caption)}</caption>\n" if caption else ""
    return f"<div class=\"wide\"><table{of}>\n{title}<thead><tr>{heads}</tr></thead>\n<tbody>\n{lines}\n</tbody>\n</table></div>"


def figures(*pairs):
    """Numbers that stand out, each with its name."""
    return "<dl class=\"figures\">" + "".join(f"<div><dt>{escaped(name)}</dt><dd>{markup(value)}</dd></div>" for name, value in pairs) + "</dl>"


def meter(part, whole):
    """How much of a whole is there, as a bar beside a number that is told anyway."""
    return Raw(f"<div class=\"meter\" aria-hidden=\"true\"><i style=\"width:{100 * part / whole if whole else 0:.1f}%\"></i></div>")


def link(target, text):
    return Raw(f"<a href=\"#{target}\">{markup(text)}</a>")
