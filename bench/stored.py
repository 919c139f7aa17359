"""What stands in the repository, for `pages.py` to compare the pages with: cases, stored outputs, words and notes of the programs, names, counted lines.

Nothing here reads a page. What is read of sources is kept, for they do not change while the pages are compared.
"""
import ast
import functools
import glob
import io
import os
import re
import tokenize

import orders

CASES = "crates/co_conform/data"
ROWS = "crates/co_order_rows"
DRAWN = "crates/co_draw_rows"
JUDGED = "crates/co_judge"
COMMANDS = "crates/co_top/src/words.rt"
ENDS = "crates/co_top/specs/Ends.antt"
NOTED_CALLS = ["crates/co_outside/src/heard.rt", "crates/co_files/src/descriptor.rt"]  # trusted to note the calls that they make
MANAGER = ["live/twin.py", "live/program.py", "live/databases.py", "live/spelling.py"]  # the rules, the pipe, the adapters, the spelling
SOURCES = ["crates/*/src/**/*.rt", "crates/*/specs/**/*.antt", "crates/*/proofs/**/*.antt", "bench/*", "live/*", "examples/*"]


def text_of(path):
    with open(path, encoding="utf-8") as file:
        return file.read()


# ---- cases and stored outputs

def runs_of(case):
    """The commands of a case: its words, its input and what it comes to."""
    for block in text_of(case).split("===\n")[1:]:
        if block.startswith("$ "):
            words, rest = block.split("\n", 1)
            given, _, came = rest.partition("---\n")
            yield words[2:], given, came


def run_of(case, word):
    """The input of the first run of a case that begins with a word, and what it comes to but its status and files."""
    for words, given, came in runs_of(case):
        if words.split()[0] == word:
            return given, came.split("status ")[0].splitlines()
    raise ValueError(f"{case} has no run of {word}")


def transcript_of(lines):
    """The items among the lines of what a run came to."""
    return [line for line in lines if re.match(r"\d+ (event|log|send|reply) ", line)]


@functools.lru_cache(None)
def shown_stored():
    """What becomes of each stored transcript with each list of words."""
    came, transcript, shown = iter(re.split(r"^=== \d+\n", text_of(f"{DRAWN}/stdout"), flags=re.MULTILINE)), "", {}
    for line in text_of(f"{DRAWN}/stdin").splitlines(keepends=True):
        if line.startswith("==="):
            words = line[3:].strip()
            shown[transcript, words] = next(came)
            transcript = transcript if words else ""
        else:
            transcript += line
    return shown


@functools.lru_cache(None)
def cases_stored():
    """The lines of each case."""
    return [text_of(path).splitlines() for path in sorted(glob.glob(f"{CASES}/*"))]


def items_stored():
    """The lines of each case and of each transcript of `examples/`."""
    return cases_stored() + [text_of(path).splitlines() for path in sorted(glob.glob("examples/*.transcript"))]


@functools.lru_cache(None)
def files_stored():
    """The bytes of each file that a case comes to, in hex."""
    return {line.split()[1] for lines in cases_stored() for line in lines if re.fullmatch(r"[mc]\d+\.[ab] [0-9a-f]+", line)}


def verdict_stored():
    """The lines that `co_judge why` is stored to write of the run that it is given."""
    return text_of(f"{JUDGED}/stdout").splitlines()


def inputs_stored(name):
    """The stored inputs that a transcript of `examples/` has to be: that of the judge, and the row of histories that is named so."""
    if name == "two_servers":
        yield f"{JUDGED}/stdin"
    if os.path.exists(f"{ROWS}/data/{name}"):
        yield f"{ROWS}/data/{name}"


def serial_verdict(transcript):
    """What a judge writes of a transcript that is serial, and else nothing: by the reading of `orders.py`, which shares nothing with `co_judge`."""
    history, records = orders.read_transcript(transcript), {}
    for _, operations in history:
        records = orders.run_one(records, operations)
        if records is None:
            return []
    return [f"serial {len(history)}", *(f"{member} {key} {value}" for (member, key), value in sorted(records.items()))]


def told_events(transcript):
    """What the reads, writes, votes and commits of a transcript come to, as the pages print a run."""
    lines = transcript.splitlines()
    for line, following in zip(lines, [*lines[1:], ""]):
        words = line.split()[2:]
        if words[:1] == ["read"]:
            yield f"{words[1]} reads {words[3]}: {following.split()[-1]}"
        elif words[:1] == ["write"]:
            yield f"{words[1]} writes {words[3]} := {words[4]}"
        elif words[:1] == ["commit"] and line.split()[1] == "event":
            yield f"{words[1]} commits"
        elif words[:2] == ["deliver", "prepare"] and " reply held " in following:
            yield f"{words[2]} would commit: held by {following.split()[-1]}"
        elif words[:1] == ["timer"] and following.endswith(" reply dropped"):
            yield f"{words[1]} is ended by its timer"


@functools.lru_cache(None)
def replies_stored():
    """Each reply of a stored case."""
    return {line.split(" reply ", 1)[1] for lines in items_stored() for line in lines if re.match(r"\d+ reply ", line)}


# ---- the words and the notes of the programs

def words_in(function):
    """The words that a function of `co_cli` takes."""
    source = text_of(COMMANDS)
    texts = dict(re.findall(r'Word::(\w+) => b"([\w-]+)"', source))
    body = source.split(f"fn {function}", 1)[1].split("\n}\n", 1)[0]
    return [texts[name] for name in re.findall(r"^ +Word::(\w+) => (?!Command::Unknown)", body, re.MULTILINE)]


@functools.lru_cache(None)
def commands():
    """The words of `co_cli`: by how many words there are, the first one."""
    return {count: words_in(function) for count, function in [(1, "alone<"), (2, "with_directory("), (3, "with_two<"), (5, "with_four<")]}


def is_directory(word):
    return bool(word) and not word.startswith("-")


def is_command(words):
    """Whether `co_cli` knows these words; capitals stand for a number or a directory."""
    if not words or words[0] not in commands().get(len(words), []):
        return False
    if words[0] == "trial":
        return all(re.fullmatch(r"\d+|NUMBER|EVENTS", word) for word in words[1:])
    if words[0] == "look":
        return all(re.fullmatch(form, word) for form, word in zip([r"m\d+|M", r"\d+|LINE", r"[^-]\S*", r"[^-]\S*"], words[1:]))
    if len(words) == 3:
        flags = [word for word in words[1:] if word == "--resume"]
        return len(flags) == 1 and all(word in flags or is_directory(word) for word in words[1:])
    return all(is_directory(word) for word in words[1:])


@functools.lru_cache(None)
def judge_words():
    """The words of `co_judge`."""
    return re.findall(r'is_word\(&words, "(\w+)"\)', text_of(f"{JUDGED}/src/main.rt")) + re.findall(r'codes "(\w+)"', text_of("crates/co_check/specs/Judge.antt"))[:1]


@functools.lru_cache(None)
def draw_words():
    """The words that `co_draw` knows."""
    return re.findall(r'b"(\w+)"', text_of("crates/co_table/src/asked.rt"))


def knows(program, words):
    """Whether a program knows these words."""
    if program == "co_cli":
        return is_command(words)
    if program == "co_judge":
        return not words or len(words) == 1 and words[0] in judge_words()
    if program == "co_draw":
        return not words or len(words) == 1 and words[0] in draw_words()
    return not words


# what a piece of a note looks like, by the function that spells it
PIECES = {"decimal": r"\d+", "spot_name": r"[mc]\d+\.[ab]", "byte_word": r"(?:[0-9a-f]{2}|none)"}


def look_of(piece, kinds):
    """What a piece of a note looks like, as a pattern: a text, a number, a file, a byte, or what is wrong with a line."""
    if piece.startswith('codes "'):
        return re.escape(piece[len('codes "'):-1])
    if piece.startswith("kind_word"):
        return f"(?:{kinds})"
    return PIECES[piece.split()[0]]


@functools.lru_cache(None)
def notes():
    """The exit code of each status and what its note looks like, by the definitions that `note.rt` and `status.rt` are proved to meet."""
    text = text_of(ENDS)
    kinds = "|".join(re.findall(r'^kind_word kind\.\w+ = codes "(.*)"$', text, flags=re.MULTILINE))
    codes = dict(re.findall(r"^code_of \(?status\.(\w+).*= (\d+)$", text, flags=re.MULTILINE))
    spelled = re.findall(r"^words_of \(?status\.(\w+).*? = (.*)$", text, flags=re.MULTILINE)
    return [(int(codes[status]), "".join(look_of(piece, kinds) for piece in pieces.split(" ++ ") if piece != "[]")) for status, pieces in spelled]


def is_note(code, note):
    """Whether a status with this exit code has this note; without a note it is empty."""
    return any(code == each and re.fullmatch(pattern, note) for each, pattern in notes())


def is_any_note(note):
    return any(pattern and re.fullmatch(pattern, note) for _, pattern in notes())


@functools.lru_cache(None)
def order_codes():
    """The exit code of each answer of `co_judge order`, by its first word."""
    codes = dict(re.findall(r"Answer::(\w+).* => (\d+),", text_of("crates/co_order/src/judge.rt")))
    answers = {"order": "Order", "values": "Repeat", "undecided": "Undecided"}
    return {word: codes[answers.get(word, "Refuted")] for word in ["order", "unwritten", "torn", "cycle", "none", "values", "undecided"]}


# ---- names

@functools.lru_cache(None)
def names():
    """All words of the code, the definitions, the proofs and the scripts, comments of the code aside."""
    found = set()
    for pattern in SOURCES:
        for path in glob.glob(pattern, recursive=True):
            if os.path.isfile(path) and os.path.basename(path) != "pages_planted.py":  # it has names that are none
                text = text_of(path)
                if path.endswith((".rt", ".antt")):
                    text = re.sub(r"(?m)(^|\s)(//|-- ).*$", "", text)
                found.update(re.findall(r"[A-Za-z_]\w*", text))
                found.add(os.path.basename(path).split(".")[0])
    return found | {os.path.basename(path) for path in glob.glob("crates/*")} | {os.path.basename(path) for path in glob.glob(f"{CASES}/*")}


def is_program(crate):
    return os.path.exists(f"crates/{crate}/src/main.rt")


@functools.lru_cache(None)
def without_wrong_bodies():
    """The crates with code, of which no wrong body is stored; programs and tests have none."""
    found = []
    for crate in sorted(map(os.path.basename, glob.glob("crates/co_*"))):
        code = any(re.search(r"(?m)^\s*\{$", text_of(path)) for path in glob.glob(f"crates/{crate}/src/**/*.rt", recursive=True))
        if code and not (is_program(crate) or crate.endswith("_tests") or glob.glob(f"crates/{crate}/must-fail/*.edit")):
            found.append(crate)
    return found


# ---- counted lines

@functools.lru_cache(None)
def rattle_lines(path):
    """The lines of code, but imports, comments and empty ones."""
    return sum(1 for line in text_of(path).splitlines() if not re.match(r"\s*(//|ghost use |use |$)", line))


def documented(source):
    """The lines of the documenting texts of a Python program."""
    for node in ast.walk(ast.parse(source)):
        if isinstance(node, (ast.Module, ast.ClassDef, ast.FunctionDef)) and ast.get_docstring(node) is not None:
            yield from range(node.body[0].lineno, node.body[0].end_lineno + 1)


@functools.lru_cache(None)
def python_lines(path):
    """The lines of code, but documenting texts, comments and empty ones."""
    silent = (tokenize.COMMENT, tokenize.NL, tokenize.NEWLINE, tokenize.INDENT, tokenize.DEDENT, tokenize.ENDMARKER)
    source = text_of(path)
    code = set()
    for token in tokenize.generate_tokens(io.StringIO(source).readline):
        if token.type not in silent:
            code.update(range(token.start[0], token.end[0] + 1))
    return len(code - set(documented(source)))


def counts():
    """What pages say of numbers: the page, and the words with the number that is counted."""
    noted, manager, cases = sum(map(rattle_lines, NOTED_CALLS)), sum(map(python_lines, MANAGER)), len(glob.glob(f"{CASES}/*"))
    yield "README.md", f"({noted} lines)"
    yield "docs/PROVED.md", f"{noted} lines, `{NOTED_CALLS[0]}` and `{NOTED_CALLS[1]}`"
    yield "docs/PROVED.md", f"{cases} stored cases of `co_conform`"
    yield "docs/LIVE.md", f"{manager} lines of"
