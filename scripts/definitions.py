#!/usr/bin/env python3
"""Lists the definitions that the top call `run`, the laws beside it and the call of the library rest on, with their files and lines, and
keeps the lists of docs/SCEPTICS.md true.

Usage: scripts/definitions.py                    compares the page with the sources; the last line is `N passed, N failed`
       scripts/definitions.py write              writes the lists of the page anew
       scripts/definitions.py COMMAND [KIND]     prints the list of one command, such as `solve matrix` or `gen`

A definition is followed by the words that it cites, through the `use` lines of its file. Each file comes after those that it cites, so a
reader who begins at the top meets no word before its definition. Lines are counted without comments, blank lines and `use` lines.

Of one command and kind, what the others alone meet is left out: equations whose left side names another case of `Command`, of `Kind` or of
`InstanceValue`, and of the grammar of words what makes other commands alone. The files of `unit` and `check-unit` are of one kind, graphs.

The clauses themselves are counted in a list of their own: those of `run`, and those of the traits `Shelf` and `Sink` with the definitions
that these alone cite.
"""

import functools
import itertools
import os
import re
import sys

HOME = os.path.dirname(os.path.dirname(os.path.abspath(__file__)))
PAGE = os.path.join("docs", "SCEPTICS.md")
CALL = ("crates/pq_cli/src/top.rt", "run")
# The clause on the status alone, and the one that says the whole promise, with the definition that says it command by command.
ANSWER = "answer"
PROMISE = "promise"
PROMISED = ("crates/pq_cli/specs/Promised.antt", "IsPromised")
# The traits of the files and the streams that the call is handed.
TRAITS = [("crates/file_io/src/shelf.rt", "Shelf"), ("crates/file_io/src/sink.rt", "Sink")]
# The crates whose laws say what replies mean.
LAWS = ["pq_cli", "one_text", "memory_run"]
# The call of the library.
LIBRARY = ("crates/pq_c/src/call.rt", "pq_c_run")
# The types whose cases tell the commands, the kinds of files and the instances apart.
COMMANDS = ("crates/command_input/specs/Words.antt", "Command")
KINDS = ("crates/row_model/src/kind.rt", "Kind")
INSTANCES = ("crates/instance_model/specs/Instance.antt", "InstanceValue")
PLAIN = "plain"
FIRST = ("Solve", "Matrix")
# The kind of the file of a command that takes no word for it.
OWN_KINDS = {"UnitModel": "Proper", "CheckUnit": "Proper"}
# The words of the cases that are named otherwise.
WORDS = {"ListOrders": "list", "UnitModel": "unit"}

USE = re.compile(r"^\s*(?:ghost\s+)?(?:pub\s+)?use\s+Rattle\.([\w.+]+?)(?:\.\{([^}]*)\}|\s+as\s+(\w+))\s*;?\s*$", re.M)
CODE_USE = re.compile(r"^use (\w+)::(?:\{([^}]*)\}|(\w+));", re.M)
HANDED_ON = re.compile(r"^pub use ((?:\w+::)*\w+)::(?:\{([^}]*)\}|(\w+));", re.M)
HEAD = re.compile(r"^( *)(?:(?:abbrev|unfoldable|opaque|pub|record|data) +)*([^\s(:{}]+)\s(?:[^=]*\s)?:(?:\s|$)")
MUTUAL = re.compile(r"(?:(?:abbrev|unfoldable|opaque) +)*mutual\b")
PART = re.compile(r"^\s+(?:pub +)?([^\s(:={}]+) : ")
FIELD = re.compile(r"(?<=[\w)])\.\w+")
WORD = re.compile(r"[^\s(){}\[\],;:.λ→×⊎≡≢≤<>+*^¬∷|]+")
MARK = "<!-- {} of the list `{}`, which scripts/definitions.py makes -->"


def words_of(text):
    """The words and operators of a text, each once, in their order. A block of `do` goes on by `>>=`."""
    return [">>=" if word == "do" else word for word in dict.fromkeys(WORD.findall(text) + text.split())]


def source(path):
    """The text of a file."""
    with open(os.path.join(HOME, path), encoding="utf-8") as stream:
        return stream.read()


def uses_of(text):
    """For each name that a text takes from elsewhere, or a module by another name: the module, and its name there."""
    found = {}
    for module, names, other in USE.findall(text):
        if other:
            found[other] = (module, None)
        for item in filter(None, (item.strip() for item in names.split(","))):
            there, _, here = item.partition(" as ")
            for word in (here or there).split("◌"):
                if word.strip():
                    found[word.strip()] = (module, there.strip())
    return found


class Definition:
    """A definition: its name, the line where it begins, and its parts: first its head, then its equations, cases or fields."""

    def __init__(self, name, line, head, kind):
        self.name, self.line, self.kind = name, line, kind
        self.parts = [[head]]

    def meant(self, part):
        """What an equation is for, or the name of a case or a field."""
        return PART.match(part[0])[1] if self.kind else part[0].partition(" =")[0]

    def right_sides(self):
        """The words of its right sides."""
        return words_of("\n".join("\n".join(part).partition(" =")[2] for part in self.parts[1:]))


class File:
    """A file of definitions, and which of them each of its names belongs to: for others, and inside, where a field is no name."""

    def __init__(self, path):
        self.path = path
        self.uses = uses_of(source(path))
        self.definitions, self.owners, self.inner = {}, {}, {}
        self.read(source(path).split("\n"))

    def read(self, lines):
        """Takes the definitions, each from its head to the next. Within `mutual` the heads stand two columns to the right."""
        now, inner, indent = None, 0, 0
        for number, line in enumerate(lines, 1):
            line = re.sub(r"\s*--.*$", "", line)
            if not line.strip() or USE.match(line) or line.startswith("infix"):
                continue
            depth = len(line) - len(line.lstrip())
            inner = 2 if MUTUAL.match(line) else inner if depth else 0
            head = HEAD.match(line)
            if head and depth <= inner:
                kind = re.match(r" *(?:pub +)?(record|data)\b", line)
                now, indent = Definition(head[2], number, line, kind and kind[1]), depth
                self.definitions[now.name] = now
                self.owners[now.name] = self.inner[now.name] = now.name
            elif now and not MUTUAL.match(line):
                self.add(now, line, depth == indent)

    def add(self, now, line, is_equation):
        """Takes a line of a definition: a new case, field or equation, or more of the last."""
        part = PART.match(line) if now.kind else None
        if part:
            self.owners.setdefault(part[1], now.name)
            if now.kind == "data":
                self.inner[part[1]] = now.name
        if part or is_equation:
            now.parts.append([line])
        else:
            now.parts[-1].append(line)


@functools.lru_cache(maxsize=None)
def file_of(path):
    """A file of definitions, read once."""
    return File(path)


@functools.lru_cache(maxsize=None)
def declared(crate, name):
    """Where the code of a crate declares a type, a trait or a constant: its file and line."""
    pattern = re.compile(rf"^\s*(?:pub(?:\(\w+\))? )?(?:struct|enum|type|const|trait) {re.escape(name)}\b")
    for place, folders, names in os.walk(os.path.join(HOME, "crates", crate, "src")):
        folders.sort()
        for file in sorted(names):
            path = os.path.relpath(os.path.join(place, file), HOME)
            for number, line in enumerate(source(path).split("\n"), 1):
                if pattern.match(line):
                    return path, number
    raise ValueError(f"the code of {crate} declares no {name}")


def cases(path, name):
    """The cases of a type, of the definitions or of the code."""
    if path.endswith(".antt"):
        return [PART.match(part[0])[1] for part in file_of(path).definitions[name].parts[1:]]
    body = re.search(rf"pub enum {name} \{{(.*?)\n\}}", source(path), re.S)[1]
    return re.findall(r"^\s+(\w+)\b.*,$", body, re.M)


def others(command, kind):
    """The cases that a command does not meet, or a command with a kind. The files of some commands are of one kind alone."""
    kind = kind or OWN_KINDS.get(command)
    left_out = set(cases(*COMMANDS)) - {command}
    if kind:
        instances = cases(*INSTANCES)
        met = word_of(kind) if word_of(kind) in instances else PLAIN
        left_out |= set(cases(*KINDS)) - {kind} | set(instances) - {met}
    return frozenset(left_out)


def made_by(words):
    """The commands that words of the grammar make, themselves or by the definitions that they name."""
    file = file_of(COMMANDS[0])
    made = set(words) & set(cases(*COMMANDS))
    for one in (file.definitions[word] for word in words if word in file.definitions):
        if not one.kind:
            made |= made_by([word for word in one.right_sides() if word != one.name])
    return made


def contract_of(path, name):
    """The text of a call up to its body, or of a trait, without comments."""
    return re.sub(r"//.*", "", re.search(rf'^pub (?:extern "C" )?(?:fn|trait) {name}\b.*?^[{{}}]', source(path), re.S | re.M)[0])


def clause_lines(path, name):
    """How many lines the clauses of a call have, or all of a trait."""
    lines = [line for line in contract_of(path, name).split("\n") if line.strip()]
    return len(lines) if lines[0].startswith("pub trait") else sum(1 for _ in itertools.dropwhile(lambda line: "ensures" not in line, lines[:-1]))


class Listing:
    """The definitions behind a contract, those of each file by their names; what the definitions name of the code; the words of the kit."""

    def __init__(self, path, call, left_out=frozenset(), clause=None):
        self.left_out = left_out
        self.found, self.cites, self.code, self.kit = {}, {}, set(), set()
        contract = contract_of(path, call)
        if clause:
            contract = next(one for one in contract.split("ensures ") if one.startswith(clause + " "))
        self.follow(contract, uses_of(source(path)), None)
        for crate, names, name in CODE_USE.findall(source(path)):
            if os.path.isdir(os.path.join(HOME, "crates", crate)):
                self.code.update(declared(crate, one) + (one,) for one in re.findall(r"[A-Z]\w+", names + name) if re.search(rf"\b{one}\b", contract))

    def is_of_others(self, file, words):
        """Whether words of the grammar of commands make commands that are left out, and no other."""
        made = made_by(words) if file.path == COMMANDS[0] else set()
        return bool(made) and made <= self.left_out

    def is_met(self, file, one, part):
        """Whether a part of a definition stands for something that the command meets."""
        if self.left_out.intersection(words_of(one.meant(part))):
            return False
        return bool(one.kind) or not self.is_of_others(file, words_of("\n".join(part).partition(" =")[2]))

    def kept(self, file, one):
        """The lines of a definition but for what the command does not meet."""
        parts = one.parts[:1] + [part for part in one.parts[1:] if self.is_met(file, one, part)]
        return [line for part in parts for line in part]

    def follow(self, text, uses, file):
        """Follows each word of a text that its file takes from elsewhere or defines."""
        for word in words_of(FIELD.sub("", text)):
            if word in uses and uses[word][1] is not None:
                self.take(*uses[word], file)
            elif file and word in file.inner:
                self.define(file, file.inner[word])
        for other, word in re.findall(r"\b(\w+)\.(\w+)", text):
            if other in uses and uses[other][1] is None:
                self.take(uses[other][0], word, file)

    def take(self, module, name, by):
        """Takes a name of a module: a definition of this repository, a name of its code, or one of the kit."""
        parts = module.split(".")
        if not os.path.isdir(os.path.join(HOME, "crates", parts[0])):
            self.kit.add((module, name))
        elif "declared" in parts:
            owner = parts[-2] if parts[-1] in ("TheVariants", "TheInside") else name
            self.code.add(declared(parts[0], owner) + (owner,))
        else:
            file = file_of(os.path.join("crates", *parts) + ".antt")
            if name not in file.owners:
                self.take(*file.uses[name], by)
                return
            if by:
                self.cites.setdefault(by.path, set()).add(file.path)
            self.define(file, file.owners[name])

    def define(self, file, name):
        """Takes a definition of a file, and follows what it cites."""
        found = self.found.setdefault(file.path, {})
        one = file.definitions[name]
        if name not in found and (one.kind or not self.is_of_others(file, one.right_sides())):
            found[name] = self.kept(file, one)
            self.follow("\n".join(found[name]), file.uses, file)

    def ordered(self):
        """The files, each below those that it cites."""
        done = []

        def visit(path, above):
            if path not in done and path not in above:
                for cited in sorted(self.cites.get(path, ())):
                    visit(cited, above | {path})
                done.append(path)

        lowest_first = [line.split(":")[0].split(" ")[0] for line in source("crates.txt").split("\n")]
        for path in sorted(self.found, key=lambda path: (lowest_first.index(path.split(os.sep)[1]), path)):
            visit(path, frozenset())
        return [path for path in done if self.found.get(path)]

    def beyond(self, *known):
        """Of each file in order the names of the definitions, and their lines, that other listings lack."""
        for path in self.ordered():
            names = [name for name in self.found[path] if not any(name in one.found.get(path, {}) for one in known)]
            if names:
                yield path, sorted((file_of(path).definitions[name].line, name) for name in names), sum(len(self.found[path][name]) for name in names)

    def lines(self, *known):
        """The lines of all definitions that other listings lack."""
        return sum(lines for _, _, lines in self.beyond(*known))


def told(names):
    """Names with their lines."""
    return ", ".join(f"`{name}` {line}" for line, name in names)


def more_cases(listing, known):
    """How many lines of definitions that other listings have as well this one has more: of further cases."""
    return sum(len(lines) - max(len(one.found.get(path, {}).get(name, [])) for one in known)
               for path, found in listing.found.items() for name, lines in found.items()
               if any(name in one.found.get(path, {}) for one in known))


def table(listing, *known):
    """A table of the definitions that other listings lack. Of a definition that stands there this one may have more cases."""
    rows = [f"| {path} | {lines} | {told(names)} |" for path, names, lines in listing.beyond(*known)]
    more = more_cases(listing, known)
    if more:
        rows.append(f"| further cases of the definitions above | {more} | |")
    return ["| File | Lines | Definitions, each with the line where it begins |", "|---|---|---|", *rows,
            f"| together | {listing.lines(*known) + more} | |"]


def public_laws(crate):
    """The laws that a crate hands on from its modules or from a crate below, or that stand at its top: each with its file."""
    folder = os.path.join("crates", crate, "src")
    top = source(os.path.join(folder, "lib.rt"))
    for module, names, name in HANDED_ON.findall(top):
        for law in re.findall(r"\w+_law\b", names + name):
            if os.path.isdir(os.path.join(HOME, "crates", module)):
                yield from (found for found in public_laws(module) if found[1] == law)
            else:
                yield os.path.join(folder, *module.split("::")) + ".rt", law
    for law in re.findall(r"^pub fn (\w+_law)\b", top, re.M):
        yield os.path.join(folder, "lib.rt"), law


def word_of(case):
    """The word of a command or a kind, by its case."""
    return WORDS.get(case) or re.sub(r"(?<=[a-z])(?=[A-Z])", "-", case).lower()


def case_of(word):
    """The case of a command or a kind, by its word."""
    named = {said: case for case, said in WORDS.items()}
    return named.get(word) or "".join(part.capitalize() for part in word.split("-"))


def counts(whole):
    """How many lines each command rests on, of a command with a kind by the first kind, and `solve` by each."""
    rows = ["| Command | Yes and no: behind `answer` | Tree and cycle: behind `promise` | Every byte: behind all clauses of `run` |", "|---|---|---|---|"]
    promised = words_of("\n".join(whole.found[PROMISED[0]][PROMISED[1]]))
    for command in cases(*COMMANDS):
        parts = [part[0] for part in file_of(COMMANDS[0]).definitions["Command"].parts]
        takes_kind = any(f" {command} : (kind " in part for part in parts)
        kinds = cases(*KINDS) if command == FIRST[0] else [FIRST[1]] if takes_kind else [None]
        for kind in kinds:
            left_out = others(command, kind)
            words = " ".join(word_of(case) for case in (command, kind) if case)
            behind = [Listing(*CALL, left_out, clause).lines() if command in promised else "it says nothing" for clause in (ANSWER, PROMISE)]
            rows.append(f"| `{words}` | {behind[0]} | {behind[1]} | {Listing(*CALL, left_out).lines()} |")
    return rows + [f"| all | {Listing(*CALL, clause=ANSWER).lines()} | {Listing(*CALL, clause=PROMISE).lines()} | {whole.lines()} |"]


def beside(whole):
    """What is read beside the definitions: the clauses themselves, those of the traits, and the definitions that these alone cite."""
    rows = [(f"the clauses of `{CALL[1]}`", CALL[0], clause_lines(*CALL))]
    rows += [(f"the trait `{name}`", path, clause_lines(path, name)) for path, name in TRAITS]
    known = [whole]
    for path, name in TRAITS:
        listing = Listing(path, name)
        rows += [(f"what `{name}` alone cites: {told(names)}", file, lines) for file, names, lines in listing.beyond(*known)]
        known.append(listing)
    return ["| What | File | Lines |", "|---|---|---|", *(f"| {what} | {file} | {lines} |" for what, file, lines in rows),
            f"| together | | {sum(lines for _, _, lines in rows)} |"]


def laws(whole):
    """What each law rests on beyond the clauses of the call."""
    rows = ["| Law | Where | Lines beyond those of `run` | Definitions, each with the line where it begins |", "|---|---|---|---|"]
    for path, law in (found for crate in LAWS for found in public_laws(crate)):
        listing = Listing(path, law)
        if not listing.lines(whole):
            continue
        names = "; ".join(f"{file}: {told(names)}" for file, names, _ in listing.beyond(whole))
        rows.append(f"| `{law}` | {path} | {listing.lines(whole)} | {names} |")
    return rows


def of_code(whole):
    """The types, traits and constants of the code that clauses and definitions name."""
    files = {}
    for path, line, name in whole.code:
        files.setdefault(path, []).append((line, name))
    rows = [f"| {path} | {told(sorted(files[path]))} |" for path in sorted(files)]
    return ["| File | Types, traits and constants, each with its line |", "|---|---|", *rows]


def of_kit(whole):
    """The words of the kit that clauses and definitions cite."""
    modules = {}
    for module, name in whole.kit:
        modules.setdefault(module, set()).add(name or "")
    rows = [f"| {module} | {', '.join(f'`{name}`' for name in sorted(modules[module]))} |" for module in sorted(modules)]
    return ["| Module of the kit | Words |", "|---|---|", *rows]


def lists():
    """The lists of the page, by their names."""
    left_out = others(*FIRST)
    answer, promise = (Listing(*CALL, left_out, clause) for clause in (ANSWER, PROMISE))
    first, whole = Listing(*CALL, left_out), Listing(*CALL)
    return {"counts": counts(whole), "beside": beside(whole), "answer": table(answer), "promise": table(promise, answer), "clauses": table(first, answer, promise), "others": table(whole, first),
            "laws": laws(whole), "library": table(Listing(*LIBRARY), whole), "code": of_code(whole), "kit": of_kit(whole)}


def with_lists(page, made):
    """The page with the lists as they are made, and the names of those that it has no place for."""
    missing = []
    for name, lines in made.items():
        begin, end = MARK.format("Begin", name), MARK.format("End", name)
        if begin in page and end in page:
            before, rest = page.split(begin, 1)
            page = before + begin + "\n\n" + "\n".join(lines) + "\n\n" + end + rest.split(end, 1)[1]
        else:
            missing.append(name)
    return page, missing


def main(words):
    if words and words != ["write"]:
        command, kind = (case_of(word) for word in (words + [""])[:2])
        if command not in cases(*COMMANDS) or kind and kind not in cases(*KINDS):
            sys.exit(f"the commands are {', '.join(map(word_of, cases(*COMMANDS)))}; the kinds {', '.join(map(word_of, cases(*KINDS)))}")
        print("\n".join(table(Listing(*CALL, others(command, kind)))))
        return 0
    page = source(PAGE)
    right, missing = with_lists(page, lists())
    problems = [f"it has no place for the list {name}" for name in missing]
    if words:
        with open(os.path.join(HOME, PAGE), "w", encoding="utf-8") as stream:
            stream.write(right)
    elif page != right:
        problems.append("its lists are not those of the sources; `scripts/definitions.py write` makes them anew")
    for problem in problems:
        print(f"FAILED {PAGE}: {problem}")
    print(f"{0 if problems else 1} passed, {len(problems)} failed")
    return 1 if problems else 0


if __name__ == "__main__":
    sys.exit(main(sys.argv[1:]))
