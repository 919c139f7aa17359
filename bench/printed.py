"""What the pages print: items, runs, verdicts, commands and notes, compared with what is stored. `pages.py` calls it."""
import os
import re

from stored import (
    commands, files_stored, is_any_note, is_command, is_note, is_program, items_stored,
    knows, notes, order_codes, serial_verdict, text_of, told_events, verdict_stored,
)

ITEM = re.compile(r"    (\d+ (?:event|log|send|reply) .*?)(?: {2,}.*)?$")
HISTORY = "examples/a_history.transcript"
GAP = "    .."
TOLD = re.compile(r"\d+ (?:reads \w+: \S+|writes \w+ := \S+|commits|would commit: .*|is ended .*)")
TOLD_RUNS = ["examples/two_servers.transcript", "crates/co_conform/data/the_two_servers_under_the_rule"]
VERDICT = re.compile(r"`((?:not serial \d+ \d+|told [a-z]+|serial [a-z]+).*?)`")
VERDICTS = ["README.md", "docs/HISTORIES.md"]
RT = ["check", "ci", "lemma", "plant", "run", "tidy", "try", "version"]
FRESH = '"$(mktemp -d)/logs"'  # a directory that nobody has used
STANDS_FOR = re.compile(r"[A-Z]+|\d+|DIR|/tmp/\w+")
COMMAND = re.compile(r"\(cd |rt [a-z]|python3 |(?:live|bench)/\S+ |co_(?:cli|judge|draw) |crates/\w+/out/\w+ ")
MENTION = re.compile(r"rt try|co_cli (?:run|records)")  # the name of a command alone
OTHER = re.compile(r"(?:wait|cycle) \d|pub |returns-")  # what `waits` writes, which tutorial.py compares; terms of a proof
IN_LINE = re.compile(r"`([^`\n]+)`")


# ---- items, runs and verdicts

def printed_items(page):
    """The printed items of a page, those that stand together; each list is one of lists, which stand apart where lines are left out."""
    lists, before = [], ""
    for line in text_of(page).splitlines():
        found = ITEM.match(line)
        if found and not ITEM.match(before):
            if before == GAP and lists:
                lists[-1].append([])
            else:
                lists.append([[]])
        if found:
            lists[-1][-1].append(found[1])
        before = line
    return lists


def stand_in(parts, lines):
    """Whether each part stands among the lines without a gap, one part behind the other; and all lines, where the first one is there."""
    start = 0
    for part in parts:
        places = [at for at in range(start, len(lines)) if lines[at] == part[0] and lines[at:at + len(part)] == part]
        if not places:
            return False
        start = places[0] + len(part)
    return not parts[0][0].startswith("1 event members ") or parts[0] == lines


def of_items(page, stored):
    for parts in printed_items(page):
        if not any(stand_in(parts, lines) for lines in stored):
            yield f"{page}: no case has {parts!r}"


def of_told_run(page):
    """A run that is printed in words, client beside client, is the recorded one, or the same under the rule."""
    events = {event for run in TOLD_RUNS for event in told_events(text_of(run))}
    for line in text_of(page).splitlines():
        cells = re.split(r" {2,}", line.strip())
        if line.startswith("    ") and TOLD.match(cells[0]):
            for cell in cells:
                if cell not in events:
                    yield f"{page}: {cell!r} is in none of {', '.join(TOLD_RUNS)}"


def of_verdict(page):
    """The verdict on the recorded run, with its reasons, is the stored one."""
    told = VERDICT.findall(text_of(page))
    if told != verdict_stored():
        yield f"{page}: the verdict {told} in place of {verdict_stored()}"


def of_history():
    """The verdict on the history that is printed in whole is what a second reading of it gives."""
    told = re.findall(r"`((?:serial \d|[mc]\d+ \w+ )[^`]*)`", text_of("docs/HISTORIES.md").split(HISTORY, 1)[-1].split("\n\n", 1)[0])
    wanted = serial_verdict(text_of(HISTORY))
    if told != wanted:
        yield f"docs/HISTORIES.md: the verdict {told} in place of {wanted}"


# ---- commands

def of_script(path, words):
    """What is wrong with the words behind a script: a word has to stand in the script, a path in the repository."""
    if not os.path.isfile(path):
        yield f"{path} does not exist"
        return
    for word in words:
        built = re.fullmatch(r"crates/(\w+)/out/(\w+)", word)
        if built and not (built[1] == built[2] and is_program(built[1])):
            yield f"{word} is not built"
        plain = re.fullmatch(r"[a-z]+|--[a-z]+", word)
        if plain and not re.search(rf"['\"]{word}['\"]", text_of(path)):
            yield f"{path} knows no {word}"
        if not (built or plain or STANDS_FOR.fullmatch(word) or is_program(word)):
            yield f"{path} is not told {word}"


def of_rt(folder, words):
    """What is wrong with the words of the toolchain's command."""
    if not words or words[0] not in RT:
        yield f"rt knows no {words[:1]}"
    elif "--" in words or words[0] in ("run", "try"):
        program, told = os.path.basename(folder), words[words.index("--") + 1:] if "--" in words else []
        if not is_program(program):
            yield f"{folder} is no program"
        elif not knows(program, told):
            yield f"{program} knows no {told}"


def of_simple(folder, text):
    """What is wrong with one command, without pipes: its words, and the files that it reads."""
    words = text.replace(FRESH, "DIR").split()
    while len(words) > 2 and words[-2] in ("<", ">"):
        if words[-2] == "<" and "/" in words[-1] and not os.path.exists(f"{folder}/{words[-1]}"):
            yield f"{words[-1]} does not exist"
        words = words[:-2]
    first, rest = words[0], words[1:]
    built = re.fullmatch(r"crates/(\w+)/out/(\w+)|(co_\w+)", first)
    if first == "rt":
        yield from of_rt(folder, rest)
    elif first == "python3":
        yield from of_script(rest[0], rest[1:])
    elif first.startswith(("live/", "bench/")):
        yield from of_script(first, rest)
    elif built:
        program = built[2] or built[3]
        if not is_program(program) or built[1] not in (None, program) or not knows(program, rest):
            yield f"{program} knows no {rest}"
    elif first != "cat":
        yield f"{first} is no command"


def commands_of(page):
    """The commands that a page prints: lines of their own that are nothing else, and parts of a line that look like one."""
    text = re.sub(r"^```.*?^```", "", text_of(page), flags=re.MULTILINE | re.DOTALL)
    for line in text.splitlines():
        if line.startswith("    ") and not (ITEM.match(line) or TOLD.match(line.strip()) or OTHER.match(line.strip()) or line == GAP):
            yield line.strip()
    for span in IN_LINE.findall(text):
        if COMMAND.match(span) and not MENTION.fullmatch(span):
            yield span


def of_commands(page):
    for command in commands_of(page):
        inside = re.fullmatch(r"\(cd (crates/\w+) && (.+)\)", command)
        folder, text = (inside[1], inside[2]) if inside else (".", command)
        if not os.path.isdir(folder):
            yield f"{page}: {folder} does not exist"
        for simple in text.split(" | "):
            for fault in of_simple(folder, simple):
                yield f"{page}: {command!r}: {fault}"


# ---- words, codes and notes of the programs

def rows_behind(page, head):
    """The rows of the table with this head, each as its cells."""
    lines = text_of(page).splitlines()
    for line in lines[lines.index(head) + 2:]:
        if not line.startswith("| "):
            return
        yield line.strip("| ").split(" | ")


def of_words():
    """The words of the table are those of `co_cli`, all of them."""
    spans = [span for row in rows_behind("docs/COMMANDS.md", "| Words of `co_cli` | What it does |") for span in IN_LINE.findall(row[0])]
    for span in spans:
        if not is_command(span.split()):
            yield f"docs/COMMANDS.md: co_cli knows no {span!r}"
    for count, known in commands().items():
        for word in known:
            if not any(span.split()[0] == word and len(span.split()) == count for span in spans):
                yield f"docs/COMMANDS.md does not tell {word} with {count} words"


def of_notes():
    """The codes and notes of the tables are those of the programs; each status has a row."""
    rows = list(rows_behind("docs/COMMANDS.md", "| Exit code | Note | Comes |"))
    told = [(int(code), note.strip("`") if note != "none" else "") for code, note, _ in rows]
    for code, note in told:
        if not is_note(code, note):
            yield f"docs/COMMANDS.md: no status has {code} and {note!r}"
    for code, pattern in notes():
        if not any(code == each and re.fullmatch(pattern, note) for each, note in told):
            yield f"docs/COMMANDS.md has no row of {code} {pattern}"


def of_judge_notes():
    """The codes and notes of the judge are among them."""
    for _, codes, note in rows_behind("docs/HISTORIES.md", "| Standard output | Exit code | Note on standard error |"):
        found = IN_LINE.findall(note.split(": a word other")[0])
        for each in found or [""]:
            if not any(is_note(int(code), each) for code in codes.split(", ")):
                yield f"docs/HISTORIES.md: no status has {codes} and {each!r}"


def of_order_codes():
    """The answers of `co_judge order` and their codes."""
    rows = rows_behind("docs/HISTORIES.md", "| Standard output | Exit code | What it claims |")
    told = {IN_LINE.search(text)[1].split()[0]: code for text, code, _ in rows}
    if told != order_codes():
        yield f"docs/HISTORIES.md: the codes {told} in place of {order_codes()}"


def of_worked_files():
    """The worked files of the formats are files of cases, and the places in the table are where those bytes stand."""
    page = "docs/FORMATS.md"
    listed, place = "", 0
    for told, spans, _ in rows_behind(page, "| Place | Bytes | Meaning |"):
        if int(told) != place:
            yield f"{page}: place {told} in place of {place}"
        row = "".join(IN_LINE.findall(spans)).replace(" ", "")
        listed, place = listed + row, place + len(row) // 2
    drawn = [block.replace(" ", "").replace("\n", "") for block in re.findall(r"^```\n(.*?)^```$", text_of(page), flags=re.MULTILINE | re.DOTALL)]
    for file in [listed, *drawn]:
        if file not in files_stored():
            yield f"{page}: no case has the file {file}"


def of_said():
    """What the tutorial says that a mistake is answered with."""
    for _, said, _ in rows_behind("docs/TUTORIAL.md", "| You wrote | It says | Write |"):
        text = said.strip("`")
        if not is_any_note(text) and text != "reply unsent":
            yield f"docs/TUTORIAL.md: no status has {text!r}"


def of_printed(pages):
    """What is wrong with what the pages print."""
    stored = items_stored()
    for page in pages:
        yield from of_items(page, stored)
        yield from of_told_run(page)
        yield from of_commands(page)
    for page in VERDICTS:
        yield from of_verdict(page)
    yield from of_history()
    yield from of_words()
    yield from of_notes()
    yield from of_judge_notes()
    yield from of_order_codes()
    yield from of_worked_files()
    yield from of_said()
