"""What `docs/TUTORIAL.md` shows, compared with the stored cases that play its schedules. `pages.py` calls it."""
import glob
import os
import re

from stored import CASES, DRAWN, replies_stored, run_of, shown_stored, text_of, transcript_of

PAGE = "docs/TUTORIAL.md"
RECORD = re.compile(r"`([mc]\d+ [^` ]+ [^` ]+)`")


def sections_of(page):
    """The sections of the tutorial that explain a schedule, each with the name of that one."""
    for part in page.split("\n## ")[1:]:
        named = re.search(r"`examples/(\w+)\.schedule`:", part)
        if named:
            yield named[1], part


def case_of(name):
    return f"{CASES}/the_tutorial_{name}"


def rows_of(section):
    """The rows of the table of a schedule, but their last column."""
    rows = [line.rsplit(" | ", 1)[0] for line in section.splitlines() if re.match(r"\| (Line|\d+) \| ", line)]
    return [row.removesuffix(" | Why |") for row in rows]


def shown_of(name, words):
    """What `co_draw` makes with these words of the transcript of a case, where it is stored."""
    items = transcript_of(run_of(case_of(name), "run")[1])
    return shown_stored().get(("".join(f"{item}\n" for item in items), words))


def prose_of(section):
    return "\n".join(line for line in section.splitlines() if not line.startswith("|"))


def of_table(name, section):
    """Each row is what the case comes to in that line, as `co_draw table` tells it."""
    given, _ = run_of(case_of(name), "run")
    if given != text_of(f"examples/{name}.schedule"):
        yield f"{case_of(name)} plays something else than examples/{name}.schedule"
    rows, told = rows_of(section), shown_of(name, "table")
    if told is None:
        yield f"{DRAWN}/stdin does not tell {name} as a table"
        return
    wanted = [line.removesuffix(" |") for line in told.splitlines() if not line.startswith("|--")]
    for row, want in zip(rows, wanted):
        if row != want:
            yield f"{PAGE}, {name}: {row!r} in place of {want!r}"
    if len(rows) != len(wanted):
        yield f"{PAGE}, {name}: {len(rows)} rows in place of {len(wanted)}"


def of_records(name, section):
    """The records that a section tells are those that `records` writes then."""
    told, (_, came) = RECORD.findall(prose_of(section)), run_of(case_of(name), "records")
    if told != came or "`records`" not in section:
        yield f"{PAGE}, {name}: the records {told} in place of {came}"


def of_waits(name, section):
    """What a section prints of `waits` is all that the case comes to, behind as many lines as the section says."""
    printed = [line.strip() for line in section.splitlines() if re.match(r"    (wait|cycle|order|rank) ", line)]
    if not printed:
        return
    given, came = run_of(case_of(name), "waits")
    if printed != came:
        yield f"{PAGE}, {name}: waits says {came}, not {printed}"
    if not text_of(f"examples/{name}.schedule").startswith(given) or f"Up to line {given.count(chr(10))}, `waits` says" not in section:
        yield f"{PAGE}, {name}: the case follows {given.count(chr(10))} lines for waits"


def of_resolved(name, section):
    """The lines that a section prints of `resolve` are all that the case comes to behind the table."""
    printed = re.findall(r"^\| `(\d+ \w+ [^`]*)` \| [^|]{8,} \|$", section, flags=re.MULTILINE)
    case = f"{case_of(name)}_resolved"
    if not os.path.exists(case):
        return
    given, came = run_of(case, "resolve")
    _, before = run_of(case_of(name), "run")
    if given != text_of(f"examples/{name}.schedule") or [*before, *printed] != came:
        yield f"{PAGE}, {name}: resolve writes {came[len(before):]}, not {printed}"


def of_pictures(page):
    """The picture of each schedule is what is drawn of the transcript of its case, and is shown; others are not there."""
    names = [name for name, _ in sections_of(page) if os.path.exists(case_of(name))]
    for name in names:
        path, drawn = f"docs/pictures/{name}.svg", shown_of(name, "")
        if drawn is None:
            yield f"{DRAWN}/stdin does not have the transcript of {name}"
        elif not os.path.exists(path) or text_of(path) != drawn:
            yield f"{path} is not what is drawn of {name}"
        if f"](pictures/{name}.svg)" not in page:
            yield f"{PAGE} does not show {path}"
    for path in sorted(glob.glob("docs/pictures/*")):
        if os.path.basename(path).removesuffix(".svg") not in names:
            yield f"{path} is shown by nothing"


def of_answers(page):
    """Each answer of the legend is one that some case has; a word in capitals stands for any other."""
    legend = page.split("\n## What the answers say\n")[1].split("\n## ")[0]
    for row in re.findall(r"^\| (`.*?) \| ", legend, flags=re.MULTILINE):
        for answer in re.findall(r"`([^`]+)`", row):
            words = [".*" if word == ".." else r"\S+" if word.isupper() else re.escape(word) for word in answer.split()]
            if not any(re.fullmatch(" ".join(words), reply) for reply in replies_stored()):
                yield f"{PAGE}: no case has the answer {answer!r}"


def of_tutorial():
    """What is wrong with the tutorial."""
    page = text_of(PAGE)
    explained = dict(sections_of(page))
    for path in sorted(glob.glob("examples/*.schedule")):
        if os.path.basename(path).removesuffix(".schedule") not in explained:
            yield f"{PAGE} does not explain {path}"
    for name, section in explained.items():
        if not os.path.exists(case_of(name)) or not os.path.exists(f"examples/{name}.schedule"):
            yield f"no stored case plays examples/{name}.schedule"
            continue
        for check in (of_table, of_records, of_waits, of_resolved):
            yield from check(name, section)
    yield from of_pictures(page)
    yield from of_answers(page)
