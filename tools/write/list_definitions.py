#!/usr/bin/env python3
"""Writes docs/DEFINITIONS.md: the claims of the headline, and the definitions that they use.

A part begins with clauses of the top call `run`, with definitions or with laws. It shows each definition that these use once, in
the order of first use; a table at the end has the definitions that only name a number. Later parts do not repeat them. The
document has the parts of the headline. With --whole (`make definitions`) the script writes all parts, and the names that no part
reaches, to a file that is not committed. --check reports whether the document is current. --count prints the number of lines of
each part.
"""
import argparse
import re
import site
import sys
from pathlib import Path
from typing import Iterator

TOP = Path(__file__).resolve().parents[2]
site.addsitedir(str(TOP / "tools" / "shared"))
from rattle import Names, definitions, files, graph, imported  # noqa: E402

DOCUMENT = TOP / "docs" / "DEFINITIONS.md"
WHOLE = TOP / "docs" / "DEFINITIONS-WHOLE.md"
CLAIMS = TOP / "crates" / "cdg_cmd" / "src" / "top.rt"
LAWS = TOP / "crates" / "run_laws" / "src"
NAME = re.compile(r"[A-Za-z_][A-Za-z0-9_'?!-]*|◌[^◌\s]+◌")

# Each part with its roots: clauses of `run`, definitions, or the laws of run_laws. The roots of a later part are not shown
# in earlier parts: an earlier part only names the part that shows them.
PARTS = [
    ("Packs are recovered", ["run.gives_back"]),
    ("Pictures are shown", ["IsAuthored", "run.shows", "pixmap", "Drawing", "written_symbols"]),
    ("The stream that is written, and late pictures", ["ArePacks", "HavePlace", "run.authors", "run.late"]),
    ("P bits, Q frames and the table of contents", ["HasFraming", "layout_of", "program_blocks", "run.frames"]),
    ("Texts of the lead-in", ["text_packs", "lead_in_need", "run.strings"]),
    ("The grammars of the two texts", ["IsSheetText", "IsScriptText", "CueSheet"]),
    ("Command lines, statuses, inputs and outputs", ["Spells", "texts", "error_line", "run.*"]),
    ("Laws for special inputs", ["laws"]),
    ("The calls of the library", ["library"]),
]

# The parts of the headline, which the document shows.
HEADLINE = 3

# The crates with definitions for the clauses of the C library, in addition to the crates of the program.
LIBRARY = ("block_survey", "rw_mend", "disc_plan", "live_player", "ribjasper_c")

# The introductions of parts. They explain names in the claims that the part does not show.
INTRODUCTIONS = {
    "Packs are recovered": "The clause of this part is about the command `convert`. It uses these variables:\n\n| Variable | Meaning |\n|---|---|\n"
    "| `form` | the form of the input |\n| `all` | the list of the bytes of the input |\n"
    "| `disc` | a cue sheet, a picture script, and the numbers of blocks of the lead-in and of the audio |\n"
    "| `stream` | the list of the bytes of an authored stream of this disc (`IsAuthored`, part II) |\n"
    "| `packs` | the list of all packs in `stream`, each a list of 24 symbols |\n\n"
    "This part needs only the field `carries` of `IsAuthored`. The field says: if `stream` has n blocks after the lead-in, these contain exactly the"
    " 4n - 7 packs in `packs`. `Spells c (texts words.now)` says that the words of the command line are those of the command c.",
    "Pictures are shown": "The clause of this part is about the command `screen`. It holds for every authored stream, regardless of the program that made"
    " the stream. `HasFraming` (part IV) says that a stream has the P bits, the Q frames and the text packs (packs of CD-TEXT) of a disc. `IsScriptText text"
    " script` (part VI) says two things: `text` has at most 64 MiB, and the grammar of picture scripts in [FORMATS](FORMATS.md) reads `text` as the"
    " script `script`.",
    "The stream that is written, and late pictures": "The clauses of this part are about the command `author`. `IsSheetText text sheet` (part VI) says"
    " two things: `text` has at most 64 MiB, and the grammar of cue sheets in [FORMATS](FORMATS.md) reads `text` as the cue sheet `sheet`.",
}

# The meaning of each clause of the headline. It replaces the comment above the clause in the code.
MEANINGS = {
    "gives_back": "`gives_back`: A *damaged copy* of a stream has at most two wrong symbols in each word. If `convert` reads a damaged copy of an"
    " authored stream, it writes every pack of this stream. The clause says nothing about a call in which a read or a write fails.",
    "shows": "`shows`: Suppose that `screen` reads a damaged copy of an authored stream. If the time `at` is from the ready time to the hold time of"
    " picture k, `screen` writes the image of a screen that shows picture k. The clause says nothing about a call in which a read or a write fails or memory runs out.",
    "authors": "`authors`: If a cue sheet and a script are valid and fit on the disc, `author` does one of two things. It writes the authored stream with"
    " the planned changes, or it reports the first late picture and writes nothing. The clause says nothing about a call in which a read or a write"
    " fails or memory runs out.",
    "late": "`late`: If `author` reports a late picture with the numbers `need` and `free`, each change of this picture (`IsChange`, part II) has `need`"
    " instructions, and `need` is greater than `free`.",
}

# The types whose variants the introduction shows, with their crates.
SHOWN_TYPES = {"Form": "raw_subcode", "Status": "cdg_cmd", "Instr": "cdg_instructions"}

ROMAN = "I II III IV V VI VII VIII IX".split()

# How to read a clause. The signature of `run` and the variants of the named types come from the code.
KEY = """
`alloc` is the heap, and `words` is the list of the words of the command line. `first` and `second` are the two inputs; for `author`, they
are the cue sheet and the script. `out` is the output, and `err` is the error output. The caller chooses the types `S` and `T` of the inputs
(*sources*), and the types `K` and `E` of the outputs (*sinks*). In the code, a clause is written `ensures name { .. }`. Clauses and
definitions use these signs:

| Sign | Meaning |
|---|---|
| `first.old` | the value of the argument `first` before the call |
| `first.new` | the value of the argument `first` after the call |
| `words.now` | the value of the argument `words`, which the call does not change |
| `result` | the return value of the call |
| `x.0`, `x.1` | the first and the second part of the tuple x |
| `x.name` | the field `name` of the record x |
| `S.left first.old` | the bytes of the input `first` that are unread before the call: `Some` with their list, or `None` if they are not known |
| `K.held out.old` | the bytes that were written to the output `out` before the call: `Some` with their list, or `None` if they are not known |
| `(x : A) → P` | P is true for every x of type A |
| `(x y : A) → P` | P is true for every x and every y of type A |
| `(x : A) × P` | P is true for at least one x of type A |
| `a ≡ b` | a and b are equal |
| `a ≢ b` | a and b are different |
| `a → b` | for statements: if a is true, b is true |
| `A → B` | for types: the type of functions from A to B |
| `a × b` | a and b are true |
| `a ⊎ b` | a or b is true |
| `¬ a` | a is false |
| `⊤` | a statement that is always true |
| `⊥` | a statement that is always false |
| `λ x. e` | the function that returns e for the argument x |
| `ℕ` | the type of the natural numbers 0, 1, 2 and so on |
| `a - b` | a minus b, or 0 if b is greater than a |
| `[]` | the empty list |
| `x ∷ xs` | the list that begins with x and continues with the list xs |
| `xs ++ ys` | the list xs, followed by the list ys |
| `record` | the definition of a type with named fields. If the fields are statements, the record is the statement that all of them are true. |
| `pub name : A` | in a record, a field of the type A |
| `record { name = e; .. }` | a record in which the field `name` has the value e, and so on |
| `record old { name = e }` | a copy of the record `old` in which the field `name` has the value e |
| `abbrev`, `unfoldable` | the definition of a name: the name means the right side. The two words differ only for the checker. |
| `data` | the definition of a type by a list of the kinds of its values. If the type is a statement, the list contains every way in which the statement is true. |
| `name : A → B ..` | in `data`, one kind of values: `name`, followed by a value of each type but the last. The last type is the one that `data` defines. |
| `{A : Type 0}` | an argument that is not written in a call, because the checker finds it |
| `f x y` | the result of the function f for the arguments x and y |
| `f : A → B → C` | f has two arguments, of the types A and B, and a result of the type C |
| `f [] = ..`, `f _ = ..` | a definition by cases: one line for each form of the argument. `_` fits every argument. The first line that fits defines the result. |
| `Type 0` | the type of every statement, and of every type of values, for example `ℕ` |
| `ℕ × ℕ` | the type of pairs of numbers |
| `(a, b)` | the pair with the parts a and b |
| `let x = e in d` | the value of d if x means e |

In lines that begin with `--`, *text* may mean any list of bytes that a call writes. A stream in the form *raw* consists of blocks. In the
form *sector*, 2,352 bytes of audio precede each block. In the form *cooked*, the 24 symbols of each word are next to each other. Packs,
pictures and pixels are numbered from 0.
""".strip()

# The meanings of variants whose names are not clear.
VARIANTS_KEY = """
`Foreign` is a pack without graphics: symbol 0 is neither 0 nor 9. `Unknown` is a pack with an unknown instruction: symbol 0 is 9, but symbol
1 is none of the numbers in the definition of `written_symbols` (part II).
""".strip()

# The further signs and words in the whole document.
WHOLE_KEY = """
The parts IV to IX use further signs and words:

| Sign or word | Meaning |
|---|---|
| `S.faults` | the number of reads that failed |
| `S.ends` | the number of reads that reported the end |
| `S.Source` | one value with the bytes and the counts of a source |
| `a ↔ b` | a if and only if b |
| put | written to an output |
| taken | read from an input |
| whole (of a pack) | with its last symbol read; this symbol is seven slots after the slot in which the pack begins |
| stand (of a picture) | be shown by the screen |
| framing | the P bits, the Q frames and the text packs of a stream |
| so many | the number in the argument |
""".strip()

# The words of the standard library: how each is used with its arguments, and its meaning.
WORDS = {
    "All": ("All P xs", "P is true for each element of the list xs"),
    "AllByRecursion": ("AllByRecursion", "a statement is true for each element of a list"),
    "Appends": ("Appends old new xs", "if `old` is `Some ys`, `new` is `Some (ys ++ xs)`: between `old` and `new`, the bytes xs were written"),
    "Bool": ("Bool", "the type of the truth values `true` and `false`"),
    "Consumes": ("Consumes", "if the contents of an input are known, exactly these bytes were removed from their front"),
    "Contains": ("Contains", "the list has this element"),
    "Err": ("Err", "the result of a call that failed, with the reason"),
    "ForSome": ("ForSome", "the statement is true for at least one value"),
    "Global": ("Global", "the heap"),
    "IfErr": ("IfErr", "if the result is `Err`, the statement is true for its reason"),
    "IfOk": ("IfOk", "if the result is `Ok`, the statement is true for its value"),
    "IfSome": ("IfSome x P", "if the option x has a value, P is true for this value"),
    "IsAtEnd": ("IsAtEnd", "if the contents of an input are known, nothing is left of them"),
    "IsErr": ("IsErr", "the result is `Err`"),
    "IsErrOf": ("IsErrOf", "the result is `Err` with this reason"),
    "IsOk": ("IsOk", "the result is `Ok`"),
    "IsTrue": ("IsTrue", "the value is `true`"),
    "List": ("List", "the type of finite lists"),
    "MatchBool": ("MatchBool", "if the truth value is `true`, the first statement is true; if it is `false`, the second one is"),
    "MatchOption": ("MatchOption", "if there is no value, the first statement is true; if there is one, the second statement is true for it"),
    "MatchResult": ("MatchResult", "if the result is `Ok`, the first statement is true for its value; if it is `Err`, the second one is true for its reason"),
    "None": ("None", "the option without a value"),
    "Ok": ("Ok", "the result of a call that succeeded, with its value"),
    "OnErr": ("OnErr", "if the result is `Err`, the statement is true"),
    "OnOk": ("OnOk", "if the result is `Ok`, the statement is true"),
    "Option": ("Option", "the type of options: `Some` with a value, or `None`"),
    "ReadConsumes": ("ReadConsumes", "a read removed exactly the bytes that it returned"),
    "Result": ("Result", "the type of results: `Ok` with a value, or `Err` with a reason"),
    "Some": ("Some x", "the option with the value x"),
    "StartsWith": ("StartsWith", "the list begins with this other list"),
    "String": ("String", "the type of texts"),
    "Unit": ("Unit", "the type with only one value"),
    "before_first": ("before_first", "the elements before the first one for which a function is true"),
    "bit_at": ("bit_at n k", "bit k of the number n, 0 or 1; bit 0 is the lowest bit"),
    "bit_xor": ("bit_xor a b", "the exclusive or of the numbers a and b, bit by bit"),
    "box_owns": ("box_owns", "a box holds this value and owns its memory"),
    "bytes_eq": ("bytes_eq", "whether two lists of bytes are equal"),
    "coded_list": ("coded_list", "a list of numbers as bytes in memory, one after another"),
    "codes": ("codes s", "the list of the characters of the text s, each as a number"),
    "concat": ("concat xss", "one list with the elements of all lists in xss, in their order"),
    "count_by": ("count_by f xs", "the number of elements of the list xs for which the function f returns `true`"),
    "decimal": ("decimal", "a number in decimal digits, without a leading zero"),
    "digit_char": ("digit_char", "the character of a digit"),
    "digit_value": ("digit_value", "the number that the character of a digit means"),
    "digits_value": ("digits_value", "the number that a list of digits means"),
    "drop": ("drop n xs", "the list xs without its first n elements"),
    "enumerate_from": ("enumerate_from", "the list of pairs of each element and its number, counted from n"),
    "false": ("false", "the truth value of a false statement"),
    "filter": ("filter", "the elements for which a function is true, in their order"),
    "filter_map": ("filter_map f xs", "the list of each value y that the function f returns as `Some y` for an element of the list xs, in the order of xs"),
    "find": ("find", "the first element for which a function is true, if there is one"),
    "flat_map": ("flat_map f xs", "the lists that the function f returns for the elements of the list xs, joined in this order"),
    "fold": ("fold f a xs", "the last value of a after these steps: for each element x of the list xs, in order, `f a x` replaces a"),
    "is_ascii_digit": ("is_ascii_digit", "whether a character is one of 0 to 9"),
    "is_ascii_hexdigit": ("is_ascii_hexdigit", "whether a character is one of 0 to 9, a to f, A to F"),
    "is_ascii_uppercase": ("is_ascii_uppercase", "whether a character is one of A to Z"),
    "is_err": ("is_err", "whether a result is `Err`"),
    "is_gt": ("is_gt", "whether a comparison says that the first value is greater"),
    "is_none": ("is_none", "whether there is no value"),
    "is_ok": ("is_ok", "whether a result is `Ok`"),
    "is_prefix": ("is_prefix", "whether a list is the beginning of another"),
    "is_some": ("is_some", "whether there is a value"),
    "length": ("length xs", "the number of elements of the list xs"),
    "lines": ("lines", "the lines of a text, which end with line feeds"),
    "list_all": ("list_all f xs", "whether the function f returns `true` for all elements of the list xs"),
    "list_any": ("list_any", "whether a function is true for some element"),
    "map": ("map f xs", "the list of the results of the function f for the elements of the list xs"),
    "max": ("max a b", "the greater one of the numbers a and b"),
    "min": ("min a b", "the smaller one of the numbers a and b"),
    "nat_cmp": ("nat_cmp", "the comparison of two numbers"),
    "nat_eq": ("nat_eq", "whether two numbers are equal"),
    "nat_le": ("nat_le a b", "whether the number a is at most b"),
    "nat_lt": ("nat_lt a b", "whether the number a is less than b"),
    "negsuc": ("negsuc n", "the integer - n - 1"),
    "not": ("not a", "`false` if the truth value a is `true`, and otherwise `true`"),
    "option_map": ("option_map", "the result of a function for a value, if there is one"),
    "pos": ("pos n", "the integer n"),
    "position": ("position", "the index of the first element for which a function is true"),
    "range_with_len": ("range_with_len a n", "the list of the n numbers a, a + 1, a + 2 and so on"),
    "replicate": ("replicate n x", "a list of n elements, each equal to x"),
    "reverse": ("reverse xs", "the list xs in reverse order"),
    "slice_cmp": ("slice_cmp", "the comparison of two lists in lexicographic order"),
    "slice_index": ("slice_index xs n", "element n of the list xs, counted from 0; if there is no such element, 0"),
    "slice_index_or": ("slice_index_or xs n d", "element n of the list xs, counted from 0; if there is no such element, d"),
    "slice_range": ("slice_range", "the elements of a list between two indices"),
    "slice_set": ("slice_set", "a list with another value at index n"),
    "slice_split": ("slice_split", "the parts of a list between the elements for which a function is true"),
    "starts_with": ("starts_with", "whether a list begins with another"),
    "str_eq_ignore_ascii_case": ("str_eq_ignore_ascii_case", "whether two texts are equal except for capital letters"),
    "str_to_ascii_uppercase": ("str_to_ascii_uppercase", "a text in capital letters"),
    "string_bytes": ("string_bytes", "a text as bytes"),
    "suc": ("suc n", "n + 1"),
    "sum_by": ("sum_by f xs", "the sum of the numbers that the function f returns for the elements of the list xs"),
    "take": ("take n xs", "the list of the first n elements of the list xs"),
    "true": ("true", "the truth value of a true statement"),
    "unwrap_or": ("unwrap_or", "the value, if there is one, or else another value"),
    "zero": ("zero", "the number 0"),
    "zip": ("zip", "one list of pairs from two lists"),
}


# A definition: its module, and its name there.
Target = tuple[str, str]
# A claim: its description and its lines.
Claim = tuple[list[str], list[str]]


class Module:
    """The definitions of a file of specs/, and the names that the file imports."""

    def __init__(self, crate: str, path: Path) -> None:
        self.crate, self.path = crate, path
        self.name = ".".join(path.relative_to(TOP / "crates" / crate / "specs").with_suffix("").parts)
        self.imports: Names = {}
        self.blocks: dict[str, list[str]] = {}
        self.read(path.read_text().splitlines())

    def read(self, lines: list[str]) -> None:
        for line in lines:
            self.imports.update(imported(line))
        begins = {it.at for it in definitions(lines)}
        for it in definitions(lines):
            first, last = it.at, it.at + 1
            while first > 1 and lines[first - 1].startswith("--"):
                first -= 1
            while last < len(lines) and lines[last].strip() and last not in begins and not lines[last].startswith("--"):
                last += 1
            self.blocks[it.name] = lines[first:last]


def modules() -> dict[str, Module]:
    """The files of definitions of all crates, by their Rattle paths."""
    found: dict[str, Module] = {}
    for crate in graph():
        for path in files("specs", crate):
            if path.name != "Lib.antt":
                module = Module(crate, path)
                found[f"{crate}.specs.{module.name}"] = module
    return found


def clauses() -> tuple[dict[str, Claim], Names]:
    """The clauses of `run`, each with its meaning or the comment above it, and the imported names."""
    lines = CLAIMS.read_text().splitlines()
    names: Names = {}
    for line in lines:
        names.update(imported(line))
    first = next(k for k, line in enumerate(lines) if line.startswith("pub fn run<"))
    last = next(k for k in range(first, len(lines)) if lines[k] == "{")
    found: dict[str, Claim] = {}
    comment: list[str] = []
    at = first
    while at < last:
        line = lines[at]
        if line.strip().startswith("//"):
            comment.append(line.strip()[3:])
        clause = re.match(r"\s+ensures (\w+) \{", line)
        if clause:
            end = at
            while not balanced("\n".join(lines[at : end + 1])):
                end += 1
            meaning = [MEANINGS[clause[1]]] if clause[1] in MEANINGS else comment
            found[clause[1]] = (meaning, [it[4:] for it in lines[at : end + 1]])
            comment, at = [], end
        elif not line.strip().startswith("//"):
            comment = []
        at += 1
    return found, names


def laws() -> Iterator[tuple[list[str], list[str], Names]]:
    """The laws of run_laws in the order of its files: the comment of each, its lines, and the imported names."""
    for path in sorted(LAWS.glob("*.rt")):
        lines = path.read_text().splitlines()
        names: Names = {}
        for line in lines:
            names.update(imported(line))
        for first, line in enumerate(lines):
            if not re.match(r"pub fn \w+", line):
                continue
            above = first
            while above > 0 and lines[above - 1].startswith("///"):
                above -= 1
            comment = " ".join(it[3:].strip() for it in lines[above:first])
            last = next(k for k in range(first, len(lines)) if lines[k] in ("{", "{}"))
            yield [comment.removeprefix("A law: ")], lines[first:last], names


def signature() -> list[str]:
    """The head of `run`, without its clauses."""
    lines = CLAIMS.read_text().splitlines()
    first = next(k for k, line in enumerate(lines) if line.startswith("pub fn run<"))
    last = next(k for k in range(first, len(lines)) if lines[k].startswith(") ->"))
    return lines[first : last + 1]


def variants(crate: str, name: str) -> list[str]:
    """A public enum of the code, without its comments."""
    for path in files("src", crate):
        lines = path.read_text().splitlines()
        if f"pub enum {name} {{" in lines:
            first = lines.index(f"pub enum {name} {{")
            last = next(k for k in range(first, len(lines)) if lines[k] == "}")
            kept = [it for it in lines[first : last + 1] if it.strip() and not it.strip().startswith(("//", "#["))]
            return on_one_line(kept)
    sys.exit(f"tools/write/list_definitions.py: {crate} has no public enum {name}")


def on_one_line(lines: list[str]) -> list[str]:
    """The lines of an enum: each variant on one line, or a short enum as one line."""
    out = lines[:1]
    for line in lines[1:]:
        is_field = line.startswith("        ")
        if is_field or line.strip() == "},":
            out[-1] += " " + line.strip()
        else:
            out.append(line)
    out = [re.sub(r", \},$", " },", line) for line in out]
    whole = re.sub(r",? \}$", " }", " ".join(line.strip() for line in out))
    return [whole] if len(whole) < 80 else out


def balanced(text: str) -> bool:
    return text.count("{") == text.count("}")


def number_row(name: str, lines: list[str]) -> str | None:
    """The table row of a definition that only names a number: the name, the number and its meaning. None for other definitions."""
    meaning = " ".join(line.removeprefix("--").strip() for line in lines if line.startswith("--"))
    code = [line for line in lines if not line.startswith("--")]
    value = re.fullmatch(rf"{re.escape(name)} = ([\w ()+*^-]+)", code[-1])
    if len(code) == 2 and code[0] == f"abbrev pub {name} : ℕ" and value:
        return f"| `{name}` | `{value[1]}` | {meaning} |"
    return None


class Document:
    """The document, and the definitions that are already shown."""

    def __init__(self) -> None:
        self.modules = modules()
        self.clauses, self.names = clauses()
        self.shown: set[Target] = set()
        # The clauses that are already shown, and the words of std and the types of the code that definitions use.
        self.shown_clauses: set[str] = set()
        self.words: set[str] = set()
        self.types: set[str] = set()

    def target(self, name: str) -> Target:
        """The definition of this name. If there are several, the first one in the order of the crates."""
        for where, module in self.modules.items():
            if name in module.blocks:
                return where, name
        sys.exit(f"tools/write/list_definitions.py: there is no definition {name}")

    def origin(self, where: str, name: str) -> Target:
        """The definition that a name means, if modules export definitions of other modules."""
        while where in self.modules and name not in self.modules[where].blocks and name in self.modules[where].imports:
            where, name = self.modules[where].imports[name]
        return where, name

    def cites(self, lines: list[str], names: Names, own: Module | None = None) -> list[Target]:
        """The definitions that some lines use, in order. The words of std and the types of the code are recorded."""
        cited: list[Target] = []
        for line in lines:
            if line.startswith("--"):
                continue
            for word in NAME.findall(line):
                if own and word in own.blocks:
                    cited.append((f"{own.crate}.specs.{own.name}", word))
                elif word in names:
                    where, name = self.origin(*names[word])
                    if where.startswith("std."):
                        self.words.add(name)
                    elif ".declared." in where:
                        self.types.add(where.split(".TheVariants")[0])
                    elif where in self.modules and name in self.modules[where].blocks:
                        cited.append((where, name))
        return cited

    def claims_of(self, root: str) -> tuple[list[Claim], list[Target]]:
        """The claims of a root of a part, and the definitions that these claims use."""
        if root == "library":
            modules = [(where, module) for where, module in self.modules.items() if module.crate in LIBRARY]
            return [], [(where, name) for where, module in modules for name in module.blocks]
        if root == "laws":
            found = list(laws())
            cited = [target for _, lines, imports in found for target in self.cites(lines, imports)]
            return [(comment, lines) for comment, lines, _ in found], cited
        if not root.startswith("run."):
            return [], [self.target(root)]
        names = [name for name in self.clauses if name not in self.shown_clauses] if root == "run.*" else [root[4:]]
        for name in names:
            if name not in self.clauses:
                sys.exit(f"tools/write/list_definitions.py: run has no clause {name}")
        self.shown_clauses.update(names)
        claims = [self.clauses[name] for name in names]
        return claims, [target for _, lines in claims for target in self.cites(lines, self.names)]

    def part(
        self, roots: list[str], later: dict[Target, str]
    ) -> tuple[list[Claim], list[Target], list[Target]]:
        """The claims of a part, the definitions that they use in the order of first use, and those that later parts show."""
        claims: list[Claim] = []
        waiting: list[Target] = []
        for root in roots:
            of_root, cited = self.claims_of(root)
            claims += of_root
            waiting += cited
        order: list[Target] = []
        put_off: list[Target] = []
        while waiting:
            target = waiting.pop(0)
            if target in self.shown:
                continue
            if target in later:
                put_off += [target] * (target not in put_off)
                continue
            self.shown.add(target)
            module = self.modules[target[0]]
            order.append(target)
            waiting = self.cites(module.blocks[target[1]], module.imports, module) + waiting
        return claims, order, put_off

    def link(self, module: Module) -> str:
        return f"../crates/{module.crate}/specs/{module.path.relative_to(TOP / 'crates' / module.crate / 'specs')}"

    def parts(self, is_whole: bool) -> tuple[list[str], list[tuple[str, int, int]]]:
        """The lines of the parts, and the title and the numbers of definitions and lines of each."""
        out: list[str] = []
        counts = []
        for number, (title, _) in enumerate(PARTS if is_whole else PARTS[:HEADLINE]):
            lines, definitions = self.printed(number)
            counts.append((title, definitions, len(lines)))
            out += [f"## {ROMAN[number]}. {title}", "", *lines]
        return out, counts

    def later_than(self, number: int) -> dict[Target, str]:
        """The definitions with which later parts begin, each with the number of its part."""
        later: dict[Target, str] = {}
        for place in range(number + 1, len(PARTS)):
            for root in PARTS[place][1]:
                if not root.startswith("run.") and root not in ("laws", "library"):
                    later.setdefault(self.target(root), ROMAN[place])
        return later

    def printed(self, number: int) -> tuple[list[str], int]:
        """The lines of a part, and the number of definitions in it."""
        title, roots = PARTS[number]
        later = self.later_than(number)
        claims, order, put_off = self.part(roots, later)
        out = [INTRODUCTIONS[title], ""] if title in INTRODUCTIONS else []
        if put_off:
            where = ", ".join(f"`{target[1]}` ({later[target]})" for target in put_off)
            out += [f"This part uses definitions that other parts show. The number of the other part follows each name: {where}.", ""]
        for comment, lines in claims:
            out += [" ".join(comment), ""] if comment else []
            out += ["```", *lines, "```", ""]
        return out + self.shown_lines(order), len(order)

    def shown_lines(self, order: list[Target]) -> list[str]:
        """The lines of definitions, grouped under the names of their files. Numbers are in a table at the end."""
        out: list[str] = []
        before, numbers = None, []
        for where, name in order:
            module = self.modules[where]
            row = number_row(name, module.blocks[name])
            if row:
                numbers.append(row)
                continue
            if where != before:
                out += ["```", ""] * (before is not None)
                out += [f"[{module.crate}, {module.name}]({self.link(module)})", "```"]
            else:
                out += [""]
            out += module.blocks[name]
            before = where
        out += ["```", ""] * (before is not None)
        if numbers:
            out += ["| Name | Number | Meaning |", "|---|---|---|", *numbers, ""]
        return out

    def rest(self) -> list[str]:
        """The names of the definitions that no part shows."""
        out = []
        for where, module in self.modules.items():
            names = [name for name in module.blocks if (where, name) not in self.shown]
            if names:
                listed = ", ".join(f"`{name}`" for name in names)
                out.append(f"- [{module.crate}, {module.name}]({self.link(module)}): {listed}")
        return out

    def text(self, is_whole: bool) -> tuple[str, list[tuple[str, int, int]]]:
        """The document, and the title and the numbers of definitions and lines of each part."""
        parts, counts = self.parts(is_whole)
        out = [
            "# Definitions",
            "",
            "This document shows the *headline*, the most important proved statement of Ribjasper, as it is in the code. Read it to judge whether the",
            "headline says what you expect: a checker can verify a statement, but only a reader can judge its meaning.",
            "[PROVED](PROVED.md#the-headline) explains the headline in words.",
            "",
            "The headline is four *clauses* of the function `run`, which performs one command of the program `ribjasper`. A clause is a statement that is",
            "true after every call of a function. Each part begins with clauses of `run`, and then shows the definitions that they use. A line that",
            "begins with `--` explains the definition below it.",
            "",
            "`tools/write/list_definitions.py` copies clauses and definitions from the code, and `make check` compares this document with the code.",
            "The clauses of `run`, the laws for special inputs, and the definitions for these and for the library are divided into nine parts.",
            "`make definitions` writes all nine to `docs/DEFINITIONS-WHOLE.md`. The headline is in parts I to III, which are in this document:",
        ]
        out += ["", "| Part | Number of definitions | Number of lines |", "|---|---|---|"]
        out += [f"| {ROMAN[k]}. {title} | {number} | {count} |" for k, (title, number, count) in enumerate(counts)]
        others = "; ".join(f"{ROMAN[k]}. {title}" for k, (title, _) in enumerate(PARTS) if k >= len(counts))
        out += ["", f"Only `docs/DEFINITIONS-WHOLE.md` has the other parts: {others}."] if others else []
        out += ["", "## How to read the definitions", "", "The function `run` has these arguments:", "", "```", *signature(), "```", "", KEY, "", *([WHOLE_KEY, ""] if is_whole else [])]
        named = ", ".join(f"`{name}` (crate `{crate}`)" for name, crate in SHOWN_TYPES.items())
        out += [f"The definitions use these types of the code: {named}. These types have the following kinds of values (*variants*):", "", "```"]
        out += ["\n\n".join("\n".join(variants(crate, name)) for name, crate in SHOWN_TYPES.items()), "```", ""]
        out += [VARIANTS_KEY, ""]
        out += ["The definitions use these words of the standard library:", "", "| Word | Meaning |", "|---|---|"]
        out += [f"| `{WORDS[word][0]}` | {WORDS[word][1]} |" for word in sorted(self.words) if word in WORDS]
        types = sorted({f"`{it.split('.')[-1]}` ({it.split('.')[0]})" for it in self.types if it.split(".")[-1] not in SHOWN_TYPES})
        if types:
            out += ["", f"The definitions use further types of the code; the name of the crate follows each type in parentheses: {', '.join(types)}."]
        out += ["", *parts]
        if is_whole:
            out += ["## What no part reaches", "", "These definitions are steps of proofs, or are about calls below `run`:", "", *self.rest()]
        return "\n".join(out).rstrip("\n") + "\n", counts


def main() -> int:
    parser = argparse.ArgumentParser(
        description="Writes docs/DEFINITIONS.md: the claims of the headline, and the definitions that they use."
    )
    how = parser.add_mutually_exclusive_group()
    how.add_argument("--check", action="store_true", help="only report whether the document is current")
    how.add_argument("--count", action="store_true", help="print the number of lines of each part")
    how.add_argument("--whole", action="store_true", help=f"write all parts, to {WHOLE.relative_to(TOP)}")
    arguments = parser.parse_args()
    document = Document()
    text, counts = document.text(arguments.whole)
    missing = sorted(word for word in document.words if word not in WORDS and not word.startswith("◌") and word not in "[]")
    if arguments.count:
        print(counts, missing)
        return 0
    failed = False
    if missing:
        print(f"tools/write/list_definitions.py: WORDS has no meaning for {', '.join(missing)}", file=sys.stderr)
        failed = True
    if arguments.check:
        if DOCUMENT.read_text() != text:
            print("tools/write/list_definitions.py: docs/DEFINITIONS.md is not current", file=sys.stderr)
            failed = True
    else:
        (WHOLE if arguments.whole else DOCUMENT).write_text(text)
    return 1 if failed else 0


if __name__ == "__main__":
    sys.exit(main())
