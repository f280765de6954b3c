#!/usr/bin/env python3
"""Counts the places in crates/*/src/*.rt that are written in an older form than the language has today.

    tools/places.py [--list] [COMMIT]

With a commit the files are those of the commit, else those of the tree. The table has a line for each kind of place and a column for each
crate; --list prints file:line of each place before it. docs/DESIGN-PASS.md says what became of them.

What can be told by the text is found by a scan. What takes reading stands in the lists at the head: a name that is gone counts no more.
"""
import collections
import glob
import os
import re
import subprocess
import sys

Place = collections.namedtuple("Place", "path line note")
Function = collections.namedtuple("Function", "file name start params result requires body")
Loop = collections.namedtuple("Loop", "function start word head body")

# Enums that are an Option or a Result in all but name. The kinds of refusals are what an error enum is, and `Line` is what a line may say.
SHAPED = {
    "book Order": "Option<usize>: Falls says nothing",
    "book Reading": "Result<the counts, (Refusal, place)>",
    "book Checked": "Result<the numbers of a book, (Refusal, place)>",
    "book Test": "Result<(), (Refusal, place)>",
    "book Step": "Result<(at, rows), (Refusal, place)>",
    "filter Supporting": "Result<Option<usize>, no column>",
    "filter Found": "Option<(usize, u64)>",
    "joining Joined": "Result<usize, four kinds of refusal>",
    "joining Whole": "Option<usize>",
    "joining Laid": "Option<(usize, usize)>",
    "listing Shown": "Result<usize, two kinds of refusal>",
    "listing Written": "Result<usize, two kinds of refusal>",
    "listing Step": "Option<usize>",
    "report Printed": "Option<usize>",
    "sheet Answer": "Result<(), (Reason, place)>",
    "sheet Listing": "Result<(total, struck), (Reason, place)>",
    "sheet RowAnswer": "Result<Option<usize>, (Reason, place)>",
    "sheet ReadingAnswer": "Result<Option<(differing, written)>, (Reason, place)>",
    "sheet Opened": "Result<the numbers of a book, (Reason, place)>",
    "short Written": "Result<usize, (Reason, place)>",
}
OTHER_ENUMS = {"book Refusal", "sheet Reason", "joining JoinRefusal", "listing ShowRefusal", "listing WriteRefusal", "limits Line"}

# Functions of which one answer says that there is none: FILE FUNCTION, and that answer.
ANSWERS_NONE = {
    "book/scans bad_count": "the range's end",
    "book/scans bad_field": "the range's end",
    "book/scans bad_code": "the range's end",
    "book/tests field_limit": "0 for no version",
    "desk/main read_file": "0 where it cannot be opened",
    "filter/lookup column_of": "the number of columns",
    "joining/heads least_key": "the best given",
    "joining/lay next_key": "NO_KEY",
    "nearest/lib search": "more fields than the book has, in Found.least",
    "nearest/rows front_at": "0 in Front.width",
    "sheet/opened seen": "255, and 254 for a fault",
    "sheet/opened first_fault": "the number of places",
    "short/forms code_fault": "the number of places",
}

# Functions that differ in a type, a size, a constant or in what is done at each step: what differs, and FILE FUNCTION of each.
TWINS = {
    "the type that a number gets": "filter/support wide, filter/queue wide32, listing/numbers wide, listing/tests wide, nearest/rows wide, "
        "nearest/rows word_of, sheet/lists wide, short/forms wide",
    "the elements copied, and from where": "book/copies copy, joining/ends put_list, listing/layout narrow, listing/numbers widen, "
        "report/writers put_word, sheet/masks copy_numbers",
    "the two-byte number's place": "book/bytes pair, nearest/rows row_count",
    "where the words of the rows go": "book/different gather, nearest/rows pack_table",
    "the array, and how it is counted": "book/different different_few, book/different different_many",
    "how the words are counted": "book/different compared, book/different sorted",
    "the test of a byte": "book/scans bad_count, book/scans bad_field, book/scans bad_code",
    "what a word is compared with": "nearest/rows has_front, words/lib is_repeated",
    "the arrays' sizes": "joining/lib join_small, joining/lib join_large",
    "one pass or plain, handed on": "filter/lib one_pass_over, filter/lib one_pass, filter/pass all_cases",
    "plain filtering, handed on": "filter/lib plain_over, filter/lib plain, filter/pass one_case",
    "counting lines or writing them": "sheet/lists count_lines, sheet/lists write_lines",
    "counting codes or writing them": "sheet/lists count_codes, sheet/lists write_field",
    "what an answered field counts": "report/parts count_answered, short/entries size",
    "the answer refused": "sheet/lib refuse, sheet/lib refuse_list, sheet/lib refuse_row, sheet/lib refuse_reading, short/lib refuse",
    "the answer accepted": "sheet/lib listed, sheet/lib suggested",
    "the trailer's version": "joining/ends put_trailer, listing/layout lay_trailer",
    "the answer told": "sighting/handed tell, sighting/handed tell_refused, sighting/handed tell_list, sighting/handed tell_row, "
        "sighting/handed tell_reading, sighting/handed tell_written, sighting/handed tell_declined, sighting/handed tell_form",
    "the answer handed with a sheet": "sighting/handed hand, sighting/handed hand_list",
    "the number tried": "limits/main try_version, limits/main try_fields, limits/main try_codes, limits/main try_tables",
}

# Groups that share a loop: what has none any more is no twin.
LOOPING = {"the test of a byte"}

# The same of types.
TWIN_TYPES = {
    "the answer beside the sheet": "sheet/lib Handed, sheet/lib HandedList, sheet/lib HandedRow, sheet/lib HandedReading, short/lib HandedForm",
    "the counts of a call": "sheet/lib Answer, sheet/lib Listing, sheet/lib RowAnswer, sheet/lib ReadingAnswer, short/lib Written",
    "the numbers of an accepted book": "book/lib Checked, joining/lib Numbers, sheet/opened Opened, book/lib Book",
    "the first row that supports": "filter/lib Supporting, filter/support Found",
    "whether it was laid out": "joining/lib Whole, joining/lay Laid",
}

# The smaller of two numbers, found by a comparison.
MINIMA = ["book/copies copy", "joining/heads lower", "limits/main within"]

# Steps chosen by a number that is given, and no bool.
SWITCHES = {
    "sheet/history called": "kind: which call is run",
    "sheet/lib filtered": "relaxed: 255 runs it without a relaxed field",
    "joining/rows narrow_by": "n: EVERY_WORD takes the table's rows for the set",
}

# Functions that take slices and how many of their elements count, as the parameters' names do not tell.
LENGTHS = {
    "report/lists put_pairs": "pairs count",
    "report/lists put_open": "masks answers fields",
    "report/parts count_answered": "answers fields",
    "report/parts put_sheet": "answers masks fields, pairs total",
}

REFUSED = "Refused|Turned|Stop|Fail|Unlisted|Unshown|Unread|Unwritten"
BOOK = {"book", "bytes", "first", "second"}
BOOK_NUMBERS = {"list", "fields", "tables", "rows", "list2", "fields2", "tables2"}
TABLE_NUMBERS = {"at", "start", "first", "count", "rows", "row", "p"}
# What stands in a function's head behind its parameters: a clause, or where its body begins or is missing. Types of arrays hold a `;` too.
HEAD = re.compile(r"\[[^\]]*\]|\b(requires|ensures)\b|[{;]")
BESIDE = {"at", "to", "first", "end", "place"}
RANGES = [("from", "n"), ("from", "end"), ("first", "count"), ("first", "end"), ("start", "end"), ("start", "count"), ("list", "end"),
          ("list", "fields"), ("list2", "fields2")]


class File:
    """A file: its text, and its code, which has blanks for comments, strings, ghost lines and clauses, so that places keep their lines."""

    def __init__(self, path, text):
        self.path, self.crate = path, path.split("/")[1]
        self.raw = text
        self.name = self.crate + "/" + os.path.basename(path)[: -len(".rt")]
        self.text = blank(text, r"//[^\n]*|\"(?:\\.|[^\"\\])*\"|(?m:^ *(?:pub(?:\(crate\))? )?ghost (?:\w+: [^\n]*|[^;]*;))")
        self.code = self.text
        self.functions = list(read_functions(self))
        self.loops = [l for f in self.functions for l in read_loops(f)]

    def place(self, start, note=""):
        return Place(self.path, self.text.count("\n", 0, start) + 1, note)

    def matches(self, pattern):
        return list(re.finditer(pattern, self.code))


def blank(text, pattern):
    return re.sub(pattern, lambda m: re.sub(r"[^\n]", " ", m[0]), text)


def closing(text, start):
    """The place behind the bracket that closes the one at start."""
    deep = 0
    for i in range(start, len(text)):
        deep += (text[i] in "({[") - (text[i] in ")}]")
        if deep == 0:
            return i + 1
    return len(text)


def parts(text, separator, opens="({[", closes=")}]"):
    """The text split where the separator stands in no bracket."""
    deep, begin, found = 0, 0, []
    for i, c in enumerate(text):
        deep += (c in opens) - (c in closes and text[i - 1] != "-")
        if deep == 0 and text.startswith(separator, i):
            found.append(text[begin:i])
            begin = i + len(separator)
    return [p.strip() for p in found + [text[begin:]] if p.strip()]


def generics(text, start):
    """The place behind a function's generic parameters, where it has some: <F: Fn(u8) -> bool> holds brackets of its own."""
    deep = 0
    for i in range(start, len(text)):
        deep += (text[i] == "<") - (text[i] == ">" and text[i - 1] != "-")
        if deep == 0:
            return i + 1 if text[i] == ">" else i
    return len(text)


def parameters(text):
    """Each parameter's name and its type; self has none."""
    given = [p.partition(":") for p in parts(text, ",", "({[<", ")}]>")]
    return {re.findall(r"\w+", name)[-1]: " ".join(kind.split()) for name, _, kind in given}


def read_functions(file):
    """The functions of a file. Their clauses are read, and then blanked in the file's code: they are no code."""
    for m in re.finditer(r"\bfn\s+(\w+)\b", file.text):
        begin = file.text.find("(", generics(file.text, m.end()))
        end = closing(file.text, begin)
        params = parameters(file.text[begin + 1 : end - 1])
        head, requires, result = end, [], None
        while (word := HEAD.search(file.text, head)) and word[0] not in "{;":
            if word[1] is None:
                head = word.end()
                continue
            result = file.text[end : word.start()] if result is None else result
            begin = file.text.index("{", word.end())
            head = closing(file.text, begin)
            if word[1] == "requires":
                requires.append((word.start(), file.text[begin + 1 : head - 1]))
            file.code = file.code[: word.start()] + re.sub(r"[^\n]", " ", file.code[word.start() : head]) + file.code[head:]
        if word is None or word[0] == ";":
            continue
        result = file.text[end : word.start()] if result is None else result
        yield Function(file, m[1], m.start(), params, result, requires, (word.start(), closing(file.text, word.start())))


def read_loops(function):
    code = function.file.code
    for m in re.finditer(r"\b(while|loop|for)\b([^{};]*)\{", code[: function.body[1]]):
        if m.start() >= function.body[0] and (m[1] != "for" or re.search(r"\bin\b", m[2])):
            yield Loop(function, m.start(), m[1], m[2].strip(), code[m.end() : closing(code, m.end() - 1) - 1])


def body_of(function):
    return function.file.code[function.body[0] + 1 : function.body[1] - 1].strip()


def index_of(loop):
    """The variable that a loop's head counts by: one of the head, moved in the body by a number; and that number."""
    for m in re.finditer(r"\b(\w+) (?:[+-]=|= \1 [+-]) (\w+);", loop.body):
        if re.search(rf"\b{m[1]}\b", loop.head):
            return m[1], m[2]
    return None, None


def without_steps(body):
    return re.sub(r"\b\w+ [+-]= \d+;", "", body).strip()


# Point 1.

def enums(files, wanted):
    for file in files:
        for m in file.matches(r"\benum (\w+)"):
            name = file.crate + " " + m[1]
            if name not in OTHER_ENUMS and (name in SHAPED) == wanted:
                yield file.place(m.start(), f"{m[1]}: {SHAPED.get(name, '')}")


def handed_on(files):
    """Arms that take a refusal out of an answer, mostly to put it into the next one."""
    for file in files:
        for m in file.matches(rf"::(?:{REFUSED})\(\w+, \w+\)\s*=>?|::(?:Stop|Over|Nothing)\s*=>"):
            yield file.place(m.start(), m[0])


def kind_numbers(files):
    """Numbers for kinds: the numbers of refusals read or written down, and kinds told apart by numbers."""
    for file in files:
        for m in file.matches(r"(?<!fn )\bnumber\(|\btell_declined\(\d+|\b(?:kind|number) [!=]= \d+"):
            yield file.place(m.start(), m[0])


def none_values(files):
    """255 and its like where they say that there is no answer, no key, no field: each line that names one, but to import it. BYTE_LIMIT
    is a limit."""
    for file in files:
        for m in file.matches(r"(?m)^(?!use |.*BYTE_LIMIT).*\b(25[45]|NO_ANSWER|NO_KEY|NONE_RELAXED|EVERY_WORD|usize::MAX)\b"):
            yield file.place(m.start(1), m[1])


def named(files, names, note=""):
    """The functions or types of a list: FILE NAME."""
    for file in files:
        for m in file.matches(r"\b(?:fn|struct|enum) (\w+)"):
            if (name := file.name + " " + m[1]) in names:
                yield file.place(m.start(), f"{m[1]} {note or (names[name] if isinstance(names, dict) else '')}".strip())


def answers_none(files):
    """Those of ANSWERS_NONE that answer no Option and no Result, and no bytes, of which there may be none."""
    for file in files:
        told = {f.start for f in file.functions if re.search(r"\b(Option|Result)<|&", f.result)}
        lines = {file.place(start, "").line for start in told}
        yield from (p for p in named([file], ANSWERS_NONE) if p.line not in lines)


# Point 2: a group counts as long as two of it stand.

def twins(files, groups):
    for what, names in groups.items():
        standing = list(named(files, re.split(r",\s+", names), f"({what})"))
        if what in LOOPING:
            loop = {file.place(loop.function.start).line for file in files for loop in file.loops if file.name in names}
            standing = [p for p in standing if p.line in loop]
        if len(standing) > 1:
            yield from standing


# Point 3.

def loops(files, wanted):
    for file in files:
        for loop in file.loops:
            if wanted(loop):
                yield file.place(loop.start, loop.word + " " + loop.head)


def is_while(loop):
    """A `while let` takes what an iterator or a file has next, and is today's form."""
    return loop.word == "while" and not loop.head.startswith("let ")


def counts_by_one(loop):
    return is_while(loop) and index_of(loop)[1] == "1"


def goes_by_more(loop):
    return is_while(loop) and index_of(loop)[1] not in (None, "1")


def moves_twice(loop):
    """The same step stands in two branches, as it must where a loop's end cannot be shared."""
    name, step = index_of(loop)
    return is_while(loop) and name and len(re.findall(rf"\b{name} [+-]= {step};", loop.body)) > 1


def indexes_by_number(loop):
    m = re.match(r"(\w+)\s+in\b.*\.\.", loop.head)
    return loop.word == "for" and m and re.search(rf"\[[^\[\]]*\b{m[1]}\b[^\[\]]*\]", loop.body)


# Point 4.

def copies(loop):
    return re.fullmatch(r"\w+\[[^;]*\] = \w+\[[^;]*\](?: as \w+)?;", without_steps(loop.body))


def compares(loop):
    return re.search(r"\w+\[[^\[\]]*\] (?:[!=<>]=|[<>]) \w+\[[^\[\]]*\]", loop.body)


def byte_arithmetic(files):
    for file in files:
        for m in file.matches(r"(?m)^.*(?:[*/%] (?:256|65536|16777216)\b|\b(?:256|65536|16777216) \*).*"):
            yield file.place(m.start(), m[0].strip())


def functions(files, wanted):
    for file in files:
        for f in file.functions:
            if found := wanted(f):
                yield file.place(f.start, f.name + (" " + found if isinstance(found, str) else ""))


def converts(f):
    return re.fullmatch(r"\w+(?:\[\w+\])? as \w+", body_of(f))


def to_numbers(f):
    """An enum or a bool turned into numbers: by arms, or by nothing but returns of 0 and 1."""
    body = body_of(f)
    return len(re.findall(r"=> \d+,", body)) > 1 or re.fullmatch(r"(?:if [^{}]*\{\s*return [01];\s*\}\s*)+[01]", body)


def puts(f):
    return re.match(r"put(_|$)", f.name)


def returns_bool(f):
    return "bool" in f.result and not re.search(r"\b(while|for|loop)\b", body_of(f)) and re.search(r"\breturn\b", body_of(f))


def lines_of(files, pattern):
    for file in files:
        for m in file.matches(pattern):
            yield file.place(m.start(), m[0])


# Point 5.

def has_type(f, name, start):
    return f.params.get(name, "").startswith(start)


def numbers(f, names):
    return [n for n, t in f.params.items() if n in names and t == "usize"]


def book_apart(f):
    if any(has_type(f, b, "&[u8]") for b in BOOK):
        return " ".join(numbers(f, BOOK_NUMBERS))


def sheet_apart(f):
    return "answers" in f.params and ("photographed" in f.params or "backed" in f.params)


def table_apart(f):
    return "arity" in f.params and " ".join(numbers(f, TABLE_NUMBERS))


def conjuncts(f):
    """What a function asks, fact by fact: a predicate by its name, a comparison by its text."""
    for start, clause in f.requires:
        flat = [p for q in parts(re.sub(r"\s+", " ", clause), " × ") for p in unpacked(q)]
        for fact in flat:
            yield start, source(f.file, fact.split(" ")[0]) if fact[0].isupper() or re.match(r"\w+\.[A-Z]", fact) else fact


def source(file, predicate):
    """A predicate with the crate that it is brought from: `Room` is one thing of a text and another of lines."""
    m = re.search(rf"ghost use Rattle\.(\w+)\.[^;{{]*\{{[^}}]*\b{predicate}\b|ghost use Rattle\.(\w+)\.\S* as {predicate.split('.')[0]};", file.raw)
    return f"{m[1] or m[2]} {predicate}" if m else predicate


def unpacked(fact):
    inner = fact[1:-1] if fact.startswith("(") and closing(fact, 0) == len(fact) else None
    return [fact] if inner is None else [p for q in parts(inner, " × ") for p in unpacked(q)]


def recurring(files):
    """Facts that three functions or more ask for, each where it is asked."""
    where = collections.defaultdict(list)
    for file in files:
        for f in file.functions:
            for start, fact in conjuncts(f):
                where[fact].append(file.place(start, f"{fact} ({f.name})"))
    for fact, places in sorted(where.items(), key=lambda w: -len(w[1])):
        if len(places) > 2:
            yield from (p._replace(note=f"{p.note}, {len(places)} times") for p in places)


# Point 6.

def buffer_and_place(f):
    """Memory lent with a place of it as the next parameter, or with a length or a place that is named so."""
    names = list(f.params)
    for i, name in enumerate(names):
        if re.match(r"&mut \[[^;]*\]$", f.params[name]):
            beside = [n for n in names[i + 1 : i + 2] if n in BESIDE] + numbers(f, {"n", "to"})
            if beside:
                return f"{name} {beside[0]}"


def slice_and_range(f):
    found = [f"{a} {b}" for a, b in RANGES if len(numbers(f, {a, b})) == 2]
    if found and any(t.startswith("&[") for t in f.params.values()):
        return ", ".join(found)
    given = LENGTHS.get(f.file.name + " " + f.name, "")
    return given.split(" ")[-1] in f.params and given


def parallel(loop):
    """Two arrays or more read or written at the same bare index."""
    m = re.match(r"(\w+) in\b", loop.head)
    name = m[1] if m else index_of(loop)[0]
    return name and len(set(re.findall(rf"\b(\w+)\[{name}\]", loop.body))) > 1


def words_and_spare(f):
    return "spare" in f.params and ("words" in f.params or "s" in f.params)


# Point 7.

def switched(f):
    """A bool that is given and chooses what is done, or a step chosen by a number of the list."""
    tested = [n for n, t in f.params.items() if t == "bool" and re.search(rf"\bif !?{n}\b", body_of(f))]
    given = SWITCHES.get(f.file.name + " " + f.name, "")
    return "by " + tested[0] if tested else given.split(":")[0] in f.params and given


KINDS = [
    ("1a", "own enums of the shape of Option or Result", lambda t: enums(t, True)),
    ("1b", "enums that no list here names, to be read", lambda t: enums(t, False)),
    ("1c", "refusals taken out of an answer by hand", handed_on),
    ("1d", "numbers for kinds and refusals", kind_numbers),
    ("1e", "values that stand for none", none_values),
    ("1f", "functions of which one answer says none", answers_none),
    ("2a", "functions that have twins", lambda t: twins(t, TWINS)),
    ("2b", "types that have twins", lambda t: twins(t, TWIN_TYPES)),
    ("3a", "`while` loops", lambda t: loops(t, is_while)),
    ("3b", "of 3a: an index counted by one", lambda t: loops(t, counts_by_one)),
    ("3c", "of 3a: a place moved by more than one", lambda t: loops(t, goes_by_more)),
    ("3d", "of 3a: the step in two branches", lambda t: loops(t, moves_twice)),
    ("3e", "`for` over numbers used as an index", lambda t: loops(t, indexes_by_number)),
    ("3f", "`loop`", lambda t: loops(t, lambda l: l.word == "loop")),
    ("4a", "loops that copy", lambda t: loops(t, copies)),
    ("4b", "loops that compare element by element", lambda t: loops(t, compares)),
    ("4c", "lines of byte arithmetic", byte_arithmetic),
    ("4d", "functions that only convert", lambda t: functions(t, converts)),
    ("4e", "functions that turn an enum or a bool into numbers", lambda t: functions(t, to_numbers)),
    ("4f", "`put` functions", lambda t: functions(t, puts)),
    ("4g", "tests without a loop that answer by `return`", lambda t: functions(t, returns_bool)),
    ("4h", "the smaller of two numbers by hand", lambda t: named(t, MINIMA)),
    ("4i", "methods called by their type's path", lambda t: lines_of(t, r"\b[ui]\d+::[a-z]\w+\(")),
    ("4j", "`field: field`", lambda t: lines_of(t, r"\b(?<!: )(\w+): \1\b(?=\s*[,}])")),
    ("5a", "functions that take a book's numbers beside its bytes", lambda t: functions(t, book_apart)),
    ("5b", "functions that take answers and photographs apart", lambda t: functions(t, sheet_apart)),
    ("5c", "functions that take a table's numbers apart", lambda t: functions(t, table_apart)),
    ("5d", "lines that reckon with a table's shape", lambda t: lines_of(t, r"(?m)^.*(?:\b[123] \+ (?:\w+\.)*arity|\* (?:\w+\.)*arity).*$")),
    ("5e", "fields taken out of a struct under their name", lambda t: lines_of(t, r"let (?:mut )?(\w+) = \w+\.\1;")),
    ("5f", "`requires` of facts that three functions ask for", recurring),
    ("6a", "functions that take a buffer and a place or length", lambda t: functions(t, buffer_and_place)),
    ("6b", "functions that take a slice and a range of it", lambda t: functions(t, slice_and_range)),
    ("6c", "the first so many of a buffer", lambda t: lines_of(t, r"\w+\[\.\.[\w.]+(?:\(\))?\]")),
    ("6d", "loops over parallel arrays", lambda t: loops(t, parallel)),
    ("6e", "functions that take words and spare ones", lambda t: functions(t, words_and_spare)),
    ("6f", "two numbers packed in one", lambda t: lines_of(t, r"[*/%] PLACE_LIMIT\b")),
    ("7a", "steps chosen by a parameter", lambda t: functions(t, switched)),
]


def git(*words):
    return subprocess.run(["git", *words], check=True, capture_output=True, text=True).stdout


def read_tree(commit):
    """The files of a commit, or of the tree where none is named."""
    os.chdir(git("rev-parse", "--show-toplevel").strip())
    if commit is None:
        return [File(p, open(p, encoding="utf-8").read()) for p in sorted(glob.glob("crates/*/src/**/*.rt", recursive=True))]
    paths = git("ls-tree", "-r", "--name-only", commit, "crates").split("\n")
    return [File(p, git("show", f"{commit}:{p}")) for p in sorted(paths) if re.fullmatch(r"crates/\w+/src/.*\.rt", p)]


def show_places(found):
    for name, what, places in found:
        print(f"{name} {what}: {len(places)}")
        for p in places:
            print(f"    {p.path}:{p.line}  {' '.join(p.note.split())}")


def show_table(found, files):
    crates = sorted({f.crate for f in files if f.functions})
    print("| | kind | " + " | ".join(crates) + " | all |")
    print("|---|---|" + "---:|" * (len(crates) + 1))
    for name, what, places in found:
        counts = collections.Counter(p.path.split("/")[1] for p in places)
        print(f"| {name} | {what} | " + " | ".join(str(counts[c] or "") for c in crates) + f" | {len(places)} |")


def main():
    words = [w for w in sys.argv[1:] if w != "--list"]
    files = read_tree(words[0] if words else None)
    found = [(name, what, list(find(files))) for name, what, find in KINDS]
    if "--list" in sys.argv:
        show_places(found)
        print()
    show_table(found, files)


if __name__ == "__main__":
    main()
