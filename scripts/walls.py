#!/usr/bin/env python3
"""Reads the sources for what the gate of proofs does not ask, and fails where one of these rules is broken.

Usage: scripts/walls.py

1. A crate's proofs are its own: no crate cites the proofs of another crate of this repository, but of those at the bottom, whose
   definitions everything shares. What a crate above needs of any other crate is a public law of it.
2. Work is counted where it is done: outside tests no code makes a counter of its own but that of the step counter, of the top call,
   where a run makes one, which all calls below are lent, of the program that times the bubble pass, of the example of a library, and of
   the calls that UNLENT lists. The signature of such a call has no place for a counter: it makes one, and hands it to the call beside it
   that counts. It is lent none, and nothing that is lent one calls it. No import gives a counter or a matrix another name, by which a
   rule could miss it.
3. Reducing a row looks at no more nodes than its steps count: outside tests no code of the crates that reduce a row in place names
   one of the calls that go over a whole arena without a step, but for the reducer's `tree`.
4. Reducing a row takes no memory: outside tests no code of these crates or of the arena takes an allocator out of a vector, and a function
   that is handed none calls nothing that takes memory of a vector's own. Nor do the other calls of which this is promised, and what they
   call of their own crate.
5. Every function of the end-to-end checks, the benches and the scripts is called: a check that does not run is none.
6. The pages name what there is: each call, type and law in the second column of docs/CONTRACTS.md is one of the crate in the first;
   docs/HOUSE.md has each crate on its floor, as crates.txt has it; docs/PROMISES.md names each clause of the top call and of the one that counts; and README.md or a
   page of docs/ names each public law. What scripts write into a page between two marks doesn't count.
7. The house has floors: crates.txt lists each crate under the heading of its floor, after all those that it stands on, so no crate stands
   on one of a higher floor. As the floor of the search stands above that of the checks, `check` makes no search.
8. A name has one meaning: no name of a crate's definitions stands twice in it, or in a crate that it stands on as well.
9. A search reads what is counted: outside tests the crates that search name a matrix only in the functions that UNCOUNTED lists. All
   others are handed its rows as `CountedRows` of row_model, of which each look at a row is a step. Of the listed ones those that HANDING
   lists do nothing with the matrix but hand it on as that, or ask how many columns it has. `CountedRows` reads its matrix in the
   functions of VIEWS alone, and hands it out nowhere. The names `m` and `steps` stand for counted rows and their counter alone. Nor are
   gaps looked at without a step: bound_tree asks them in the function of GAP_LOOKS alone, which counts one. The judge looks at rows as often as
   JUDGE_LOOKS says, in each of its functions; clauses say how many steps these count.
10. A turn of a search costs a step: each loop of a function of these crates ticks, or makes a counted read, or calls a function of which
   a clause named `costs` says that it costs one, on every turn: neither behind a `continue` nor where a condition decides. UNTICKED of
   scripts/loops.py lists the loops that need not, and with them what else goes over a list: calls, a `vec!` of many items, two lists that are compared. It says
   how many there are in each function, so one more is found too. A turn that calls one of these functions is one of them. No struct there
   can be compared or copied with all of a list that it has. No function of these crates calls itself.
11. Who may search: verdict_judge names no search, and the crates of the replies and of the program stand on no crate that reduces or
   searches but c1p_solve.
12. The solver reads no row: c1p_solve does nothing with a matrix but ask how many rows and columns it has, add and remove its last row,
   and hand it to its own functions, to the reducer, with the number of one row, and to the search.
13. The reading of loops itself is tried: of the loops in SAMPLES each is found where a turn of it may cost no step, and no other.
14. A name of the lists of rules 9, 10 and 15 is that of one function, and so is that of a function whose calls cost a step.
15. Reducing a row in place goes over a list only where IN_PLACE says so: outside tests the crates that do, and the arena, have only the loops
   whose turns tick, and those that are listed, with their calls that go over a list and their `vec!` of many items. It says how many there
   are in each function, and HEADS how its loops begin, so one more is found, and one that goes over more. A turn that calls one of these
   functions is one of them. Of these functions only the one that
   gives a tree out calls itself.
16. No status depends on the sink of errors: the functions of the top call name it in one line each, as TOLD has it. Three hand it on at their
   end, and `tell` to `report`, which answers nothing.
17. What goes over a list or takes memory has no other name there: the crates that search, or that reduce a row in place, call no function of a
   trait or of the kit by its path, but for those of KIT_PATHS, and import of the kit what KIT_IMPORTS has. Nor have they what this reading of text
   does not know (UNREAD). It is tried by samples too.

What stands behind `#[cfg(test)]` is a test, also in a file of its own; a file without that is none, whatever its name.

Each line that breaks a rule is printed. The last line is `N passed, N failed`; the status is 0 where nothing failed.
"""

import ast
import itertools
import os
import re
import sys

import build
from loops import HEADS, IN_PLACE, PATH_SAMPLES, RECALLED, SAMPLE_LISTS, SAMPLES, UNREAD_SAMPLES, UNTICKED

HOME = os.path.dirname(os.path.dirname(os.path.abspath(__file__)))
# The crates whose definitions everything shares; docs/DECISIONS.md says why they offer their lemmas too.
SHARED_PROOFS = {"column_order", "plain_text", "text_parts", "core_text", "row_model", "odd_cycle", "text_lines", "pq_tree", "tree_theory", "row_core", "arena_model", "template_model"}
COUNTERS = {"step_count", "bubble_bench", "order_example"}
# The functions of the top call that make the counter of a run.
RUN_COUNTER = {"run", "run_from"}
# The public calls whose signature has no place for a counter, by their crates: each with the function that makes a counter of its blank.
UNLENT = {"bound_tree": ("is_complete", "is_complete_by"), "verdict_judge": ("check", "check_by")}
# The crate that looks at gaps on a counter, its one function that asks them, and the calls that tell of them.
GAP_LOOKS = ("bound_tree", "is_open", re.compile(r"(?:\.(?:is_open|is_at_open_gap|before|behind)|OpenGaps::(?!new\b)\w+)\("))
# How often the functions of the judge look at a row, or have it looked at, beside the steps that they count for it; and the files of calls that
# count none.
JUDGE_LOOKS = {"is_textbook_order": 2, "first_broken_row": 1, "holds": 1, "count_rows": 1}
JUDGE_ASKS = re.compile(r"(?:\.|\bMatrix::)(?:keeps|row|has|row_len|ones)\(|\b(?:span_of|is_kept|row_has)\(")
UNCOUNTED_FILES = ("core_check.rt", "holds.rt", "unit.rt")
STEPPED = ["bubble_pass", "full_pass", "templates_p", "templates_q", "row_reduce"]
WITHOUT_MEMORY = ["pq_arena"] + STEPPED
WHOLE_TREE = ("crates/row_reduce/src/reducer.rt", "tree")
# Calls besides that are promised to take no memory, by their crates.
PROMISED = {
    "row_model": {"pop_row", "row", "has", "joined_by"}, "pair_classes": {"same"}, "walk_search": {"joined"}, "proper_interval": {"fits"},
    "unit_model": {"unit_fits"}, "verdict_judge": {"tree_holds", "check_unit"}, "command_input": {"task_of"},
}
# The crates that search, and their functions that may name a matrix: those with a signature of their own, which hand its rows on as
# `CountedRows`; those of the judge, who counts no steps; and those of the small matrix that an attempt makes for itself.
SEARCHING = ["odd_cycle", "pair_classes", "open_gaps", "walk_search", "border_ways", "short_cycles"]
UNCOUNTED = {
    "odd_cycle": set(),
    "pair_classes": {"even_classes"},
    "open_gaps": set(),
    "walk_search": {"odd_walk", "joined", "simple_cycle"},
    "border_ways": set(),
    "short_cycles": {"odd_cycle_along"},
}
# Of these, those that hand the matrix on.
HANDING = {"even_classes", "odd_walk", "odd_cycle_along", "simple_cycle"}
HANDED = re.compile(r"\bCountedRows::new\(m\)|\bm\.columns\(\)")
# The file of `CountedRows`, and the functions there that read its matrix, each by a clause for a step or for none.
COUNTED_ROWS = os.path.join("row_model", "src", "counted.rt")
VIEWS = {"columns", "rows", "len_counted", "has_counted", "member_counted", "next_counted", "ones_of_row", "span_counted", "ones_counted", "push_row", "ones", "counted"}
# How many of their lines go over a list without a tick: a span is found along a row whose columns were counted, and a row is copied.
VIEW_WALKS = {"span_counted": 1, "push_row": 1}
# Calls of the crates below that go over a list or make a table, and are handed no counter.
WALKS = re.compile(
    r"(?<![\w.:])(?:positions|span_of|is_order|is_kept|row_has|short_cycle|is_folded|sorted_columns|is_rising)\("
    r"|\b(?:Marks|PairNumbers|Forest)::new\(|\.(?:push_row|keeps)\(")
SEARCHES = {"odd_walk", "odd_cycle_along", "shorter_cycle", "find_core", "walk_across", "walk_among", "simple_cycle"}
JUDGE = "verdict_judge"
SOLVER = "c1p_solve"
# What each function of the top call does with the sink of errors.
TOLD = {
    "run": "run_from::<F, O, E, Brand>(alloc, words, files, out, err, Blank::new(1))",
    "run_from": "run_counted(alloc, words, files, out, err, &mut steps)",
    "run_counted": "tell(ended, err)",
    "tell": "report(&failure, err);",
}
# The crates that reduce or search, and those that reach them by the solver alone.
BEHIND_SOLVER = {"pq_arena", "bubble_pass", "templates_q", "full_pass", "templates_p", "row_reduce", "walk_search", "border_ways", "short_cycles", "incompat_graph", "pq_plain"}
BEFORE_SOLVER = ["solve_replies", "pq_cli", "pq", "pq_gen", "memory_run", "pq_c"]
PYTHON = ["end_to_end", "bench", "scripts"]
CONTRACTS = os.path.join("docs", "CONTRACTS.md")
PROMISES = os.path.join("docs", "PROMISES.md")
HOUSE = os.path.join("docs", "HOUSE.md")
TOP = os.path.join("crates", "pq_cli", "src", "top.rt")

CITED = re.compile(r"Rattle\.([a-z0-9_]+)\.proofs\b|\b([a-z0-9_]+)::proofs::")
COUNTER = re.compile(r"\b(Blank|Brand)\b|\bSteps\b.*::new\b|^::new\b")
RENAMED = re.compile(r"\b(?:Matrix|Blank|Brand|Steps) as \w+")
LENT = re.compile(r"\bsteps: &mut Steps\b")
MADE = re.compile(r"\b(Blank|Steps)(?:::<[^>]*>)?::new\(")
FUNCTION = re.compile(r"\bfn (\w+)")
WALK = re.compile(r"\b(to_tree|is_one_tree|has_two_each)\b")
ALLOCATOR = re.compile(r"\ballocator\(")
# a text or a character, and the parameter by which a function is handed an allocator
TEXT = re.compile(r"""b?"(?:[^"\\]|\\.)*"|b?'(?:[^'\\]|\\.[^']*)'""")
HANDED_ALLOCATOR = re.compile(r"(?:^\s*|[(,] ?)_?alloc: ")
# what takes memory of a vector's own; the climber's call of this name puts a node into a queue that has room for all that comes to it
TAKES = re.compile(r"(?:\.|Vec::)(?:push\w*|insert\w*|append|(?:try_)?reserve\w*|shrink_to\w*|resize|resize_with|extend|extend_from_slice|extend_from_within|split_off|to_vec|to_owned|collect|clone)\b|\bvec!")
QUEUED = re.compile(r"bubble_pass/src/climber\.rt:\d+ .*\bself\.push\(|bubble_pass/src/\w+\.rt:\d+ .*\bclimber\.push\(")
MATRIX = re.compile(r"\bMatrix\b")
# the matrix behind the reads that are counted, in these functions alone; where it comes in; its field, if that is open to others; and the
# type of what hands it out
VIEWED = re.compile(r"\bmatrix\b")
MAKES_VIEW = re.compile(r"^\s*(?:ensures \{ result ≡ matrix\.now \}|pub fn new\(matrix: &'a Matrix\) -> Self|CountedRows \{ matrix \}|matrix: Matrix::new\(alloc, columns\)\?,)$")
OPEN_VIEW = re.compile(r"\bpub(?:\([^)]*\))? matrix:")
HANDED_OUT = re.compile(r"->.*\bMatrix\b")
# the matrix `m`, and how it is handed over
OF_MATRIX = re.compile(r"\bm\b")
PARAMETER = re.compile(r"\bm: &Matrix,")
# a function that is named by the path of its type or trait; what a type may have by a derive; and what of the kit, or
# made by a macro, may be named so
PATH = re.compile(r"(?<![\w.:])(?:\w+::)*(\w+)::(?:<[^()]*>::)?([a-z]\w*)\b(?!::)")
DERIVED = {"clone", "clone_from", "eq", "ne", "cmp", "partial_cmp", "lt", "le", "gt", "ge", "max", "min", "clamp", "hash", "to_owned", "into_iter"}
KIT_PATHS = {"Vec::new", "Vec::with_capacity", "u64::from", "Lines::from_vec"}
KIT_IMPORTS = {"use std::alloc::Global;", "use std::marker::Model;"}
# What this reading of text does not know, so a crate that searches or reduces in place has none of it.
UNREAD = {
    "a function of a kind that is not read": re.compile(r"\b(?:const|unsafe|extern)\b.*\bfn \w"),
    "a macro of its own": re.compile(r"\bmacro_rules!"),
    "another name by an import": re.compile(r"^(?:pub(?:\([^)]*\))? )?use .*\bas \w|^[\w, ]*\b\w+ as \w+,"),
    "another name of a type": re.compile(r"^(?:pub(?:\([^)]*\))? )?type \w"),
    "a type parameter that is compared, copied or gone over": re.compile(
        r"(?:[<,] ?|\bwhere |^)\w+: (?:\w+ \+ )*(?:PartialEq|Eq|PartialOrd|Ord|Clone|Hash|Copy|Iterator|IntoIterator|Fn\w*)\b"),
    "a call with its types": re.compile(r"\b\w+::<[^()]*>\("),
    "a method by its path": re.compile(r"::(?:push_row|keeps)\("),
    "a part of a list by a test": re.compile(r"\.(?:r?split(?!_first|_last|_at|_off)\w*|chunk_by\w*)\("),
    "a text": re.compile(r'"'),
}
IMPORTED = re.compile(r"(?:pub(?:\([^)]*\))? )?use (\w+)")
OTHER_ALLOCATOR = re.compile(r"\b_?alloc: (?!Global\b)")
OTHER_MATRIX = re.compile(r"\b(?!m\b|matrix\b|_matrix\b)\w+: &?(?:mut )?Matrix\b")
# a loop with a block of its own, and the name that goes over it; and a call that goes over a list
BLOCK = re.compile(r"\b(?:while|loop)\b|(?<![\w>] )\bfor \W*(\w+)")
OVER_LIST = re.compile(
    r"\.(?:any|all|r?find\w*|filter\w*|flat_map|map_while|take_while|skip_while|try_for_each|for_each|(?:try_)?r?fold|scan|r?position|contains|nth|count|sum"
    r"|product|(?:min|max)_by\w*|sort\w*|dedup\w*|reverse|retain\w*|fill\w*|rotate\w*|extend\w*|to_vec|to_owned|concat|copy_from_slice|clone_from\w*"
    r"|is_sorted\w*|starts_with|ends_with|strip_(?:pre|suf)fix|select_nth\w*|swap_with_slice|drain|split_off|partial_cmp|partition|reduce|unzip|(?:try_)?collect"
    r"|nth_back|append|insert|remove|resize\w*|splice|copy_within|repeat|join)(?:::<[^(]*>)?\(|(?:iter(?:_mut)?\(\)|windows\(|chunks\w*\(|\.\.).*"
    r"\.(?:map|last|max|min|eq|ne|lt|le|gt|ge|cmp)(?:::<[^(]*>)?\(|<&?\[\w+\]>::"
    r"|(?:vec!|= )\[(?:in \w+; |(?!in ))[^;\]]*; "
    # what goes over a list, kept under a name for a later line
    r"|\blet (?:mut )?\w+(?:: [^=]*)? = .*(?:\biter(?:_mut)?\(\)|\b(?:windows|chunks\w*|r?split\w*)\([^()]*\))(?:\.(?:rev|enumerate|skip|take|zip|cloned|copied|peekable|step_by|chain)\([^()]*\))*\??;$")
# what costs a step: a clause that says so, always or with a value; a tick or a counted read; and the name of what is called, in the head
# of a loop that goes on as long as there is a value or anywhere
COSTS = re.compile(r"^\s*ensures costs \{ (?:OnOk result \()?steps\.old \+ 1 ≤ steps\.new\)? \}$")
COSTS_IF_OK = re.compile(r"^\s*ensures costs \{ OnOk result ")
SOME_COSTS = re.compile(r"^\s*ensures costs \{ IfSome result \(λ \w+\. steps\.old \+ 1 ≤ steps\.new\) \}$")
TICKS = re.compile(r"(?<![\w.])(?:steps\.tick\(\)|(?:front\.)?m\.(?:len|has|member|ones)_counted\()")
NEXT = re.compile(r"^\s*while let Some\(\w+\) = (m\.next_counted|\w+)\(")
CALLED = re.compile(r"(?<![\w.:])(\w+)\(")
# where a name that stands for counted rows or their counter is given to another value, in a body or in a head
HIDDEN = re.compile(r"\b(?:let|let mut|for) (?:m|steps)\b|(?<![\w)])\((?:m|steps)\) =|\|(?:m|steps)[|,:]|\b(?:Some|Ok)\((?:m|steps)\) (?:=|if)")
GIVEN_NAME = re.compile(r"\b(?:let|let mut|as) (\w+)\b")
MEANS = re.compile(r"\bm: (?!&CountedRows,|&Matrix,|&'a CountedRows<'a>,)|\bsteps: (?!&mut Steps<L>[,)])")
# the type of a list; a name that has it, and one that a call of a function or of a method gives it
LIST = r"(?:&(?:'\w+ )?(?:mut )?)?(?:\[|Vec(?:Deque)?<)"
OF_LIST = re.compile(r"\b(\w+): " + LIST)
FIELD = re.compile(r"^\s+(?:pub(?:\([^)]*\))? )?(\w+): ")
MADE_LIST = re.compile(r"\blet (?:mut )?(\w+)(?:: [^=]*)? = (?:(?:\w+::)*(\w+)\(|vec!|.*\.(?:collect|split_off|as_slice|lines)\()")
NESTED = re.compile(r"\b(\w+): (?:&(?:'\w+ )?(?:mut )?)?(?:\[|Vec<)(?:&(?:'\w+ )?)?(?:\[|Vec<)")
OF_NESTED = re.compile(r"\blet (?:mut )?(\w+)(?:: [^=]*)? = &(?:mut )?(?:\w+\.)*(\w+)\[[^.]")
GIVES_LIST = re.compile(r"-> (?:Result<)?" + LIST)
COMPARED = re.compile(r"^#\[derive\(.*\b(?:PartialEq|PartialOrd|Hash)\b")
COPIED = re.compile(r"^#\[derive\(.*\bClone\b")
# where what a line always does ends: at a block or behind one, at a closure, or at a second condition
SURE = re.compile(r"&&|\|\||=>|[{}]|\|[\w(&]")
CONTINUES = re.compile(r"\bcontinue\b")
# a call, and what it is a call of
CALL = re.compile(r"(?:([\w.]*\w)(\.|::))?\b(\w+)\(")
# what the solver does with a matrix: sizes, its last row, and the calls that it is handed to
ASKED = re.compile(
    r"\b(?:m|self\.matrix)\.(?:rows|columns|push_row|pop_row)\(|\b(?:solve|reduce_all|reduce_last|conflict|odd_cycle_along|reduce|reduce_row|reduce_after)\([^()]*?&?\b(?:m|self\.matrix),"
    r"|^\s*(?:matrix: (?:m|_matrix),|&self\.matrix)$")
ITS_MATRIX = re.compile(r"\b(?:m|matrix)\b")
# a line of an import
IMPORTS = re.compile(r"(?:pub )?use |[\w, ]+,$")
WORD = re.compile(r"\w+")
FUNCTION_HEAD = re.compile(r"^(\s*)(?:pub(?:\([^)]*\))? )?fn (\w+)")
TEST_MODULE = re.compile(r"^#\[cfg\(test\)\]\n(?:pub )?mod (\w+);", re.M)
NAMED = re.compile(r"`([\w:]+)`")
# a part of a page that a script writes
WRITTEN = re.compile(r"^<!-- Begin of .*?^<!-- End of ", re.S | re.M)
ITEM = re.compile(r"\b(?:fn|struct|enum|trait|type) (\w+)")
# a law by its name, and no module of that name
LAW = re.compile(r"\b(?<!mod )\w+_laws?\b(?!::)")
# a heading of a floor, a crate that docs/HOUSE.md describes, one that crates.txt lists, and the start of a definition, with its name
FLOOR = re.compile(r"^#+ (\d+)\. \S")
HOUSE_CRATE = re.compile(r"^\| `(\w+)` \|")
LISTED_CRATE = re.compile(r"^(\w+)(?: staticlib)?:")
DEFINED = re.compile(r"^(?:(?:pub|abbrev|unfoldable|record|data) +)+([^\s:(){}]+)\s*(?:[({][^)}]*[)}]\s*)*:")
# the head of definitions that name one another, and a line that begins one of these
MUTUAL = re.compile(r"^(?:(?:abbrev|unfoldable) +)*mutual\b")
DEFINED_IN_MUTUAL = re.compile(r"^  (?:(?:pub|record|data) +)*([^\s:(){}]+)\s*(?:[({][^)}]*[)}]\s*)*: ")


def crates():
    """The crates of the repository."""
    with open(os.path.join(HOME, "crates.txt"), encoding="utf-8") as stream:
        found = [line.split("#")[0].partition(":")[0].split() for line in stream]
    return [words[0] for words in found if words]


def files(folder, *endings):
    """The files below a folder with one of these endings, but for what the toolchain makes."""
    for place, folders, names in os.walk(os.path.join(HOME, folder)):
        folders[:] = sorted(name for name in folders if name not in ("out", "__pycache__"))
        for name in sorted(names):
            if name.endswith(endings):
                yield os.path.join(place, name)


def numbered(path):
    """The lines of a file, with where each stands."""
    with open(path, encoding="utf-8") as stream:
        for number, line in enumerate(stream, 1):
            yield f"{os.path.relpath(path, HOME)}:{number}", line


def foreign_proofs(names):
    """Where a crate cites the proofs of another that are not shared."""
    for crate in names:
        for path in files(os.path.join("crates", crate), ".rt", ".antt"):
            for place, line in numbered(path):
                for match in CITED.finditer(line):
                    cited = match[1] or match[2]
                    if cited in names and cited != crate and cited not in SHARED_PROOFS:
                        yield f"{place}: cites the proofs of {cited}"


def outside_tests(path):
    """The lines of a source that are no part of its tests, with where each stands. An item for tests ends where its line or its braces end."""
    is_next, depth = False, 0
    for place, line in numbered(path):
        if line.startswith("#[cfg(test)]"):
            is_next = True
        elif is_next or depth:
            is_next = False
            depth += line.count("{") - line.count("}")
        else:
            yield place, line


def test_places(crate):
    """The files and folders of the modules of a crate that are compiled for tests alone."""
    for path in files(os.path.join("crates", crate, "src"), ".rt"):
        stem = os.path.splitext(path)[0]
        home = os.path.dirname(path) if os.path.basename(stem) in ("lib", "main") else stem
        with open(path, encoding="utf-8") as stream:
            for name in TEST_MODULE.findall(stream.read()):
                yield os.path.join(home, name)


def sources(crate):
    """The sources of a crate that are no part of its tests."""
    tests = list(test_places(crate))
    for path in files(os.path.join("crates", crate, "src"), ".rt"):
        if not any(path == place + ".rt" or path.startswith(place + os.sep) for place in tests):
            yield path


def bare(line):
    """A line without its comment, and without what stands in its texts."""
    return TEXT.sub('""', line).split("//")[0].rstrip()


def code(crate):
    """The lines of a crate's sources that are no part of its tests, without comments and texts, with where each stands."""
    for path in sources(crate):
        for place, line in outside_tests(path):
            yield place, bare(line).strip()


def functions(crate):
    """The functions of a crate outside its tests: the name of each, and its lines without comments and texts, with where each stands."""
    for path in sources(crate):
        name, indent, lines = None, "", []
        for place, line in outside_tests(path):
            line = bare(line)
            head = FUNCTION_HEAD.match(line)
            if head and name is None:
                name, indent, lines = head[2], head[1], []
            if name is not None:
                lines.append((place, line))
                if line in (indent + "}", indent + "{}") or place == lines[0][0] and line.endswith("}") and line.count("{") == line.count("}"):
                    yield name, lines
                    name = None


def own_counters(names):
    """Where code outside tests makes a step counter of its own."""
    for crate in names:
        if crate in COUNTERS:
            continue
        function = None
        for place, line in code(crate):
            found = FUNCTION.search(line)
            function = found[1] if found else function
            is_of_run = place.partition(":")[0] == TOP and (function in RUN_COUNTER or line.startswith("use "))
            is_unlent = crate in UNLENT and (function in UNLENT[crate] or line.startswith("use "))
            if COUNTER.search(line) and not is_of_run and not is_unlent:
                yield f"{place}: makes a step counter: {line}"
            if RENAMED.search(line):
                yield f"{place}: gives another name: {line}"
    made = [found for place, line in code("pq_cli") if place.partition(":")[0] == TOP for found in MADE.findall(line)]
    if made != ["Blank", "Steps"]:
        yield f"{TOP}: a run makes one blank and of it one counter, and not {made}"
    for crate, makers in UNLENT.items():
        made = [found for _, line in code(crate) for found in MADE.findall(line)]
        if made != ["Blank", "Steps"]:
            yield f"crates/{crate}: its call without a counter makes one blank and of it one counter, and not {made}"


def lent_to_unlent():
    """Where a call that makes a counter of its own is lent one, or is called by what is lent one."""
    for crate, makers in UNLENT.items():
        for other in [crate, *(name for name, below in build.stands_on().items() if crate in below)]:
            call = re.compile(rf"(?<![\w.])(?:{'|'.join(sorted(with_callers(other, {makers[0]})))})\(")
            yield from (f"{place}: gives {makers[0]} another name: {line}" for place, line in code(other) if re.search(rf"\b{makers[0]} as \w", line))
            for name, lines in functions(other):
                if not any(LENT.search(line) for _, line in lines):
                    continue
                if other == crate and name in makers:
                    yield f"{lines[0][0]}: {name} makes a counter, and is lent one"
                for place, line in lines[1:]:
                    if call.search(line):
                        yield f"{place}: {name} is lent a counter, and calls {makers[0]}, which makes one"


def uncounted_walks():
    """Where code that reduces a row goes over all nodes of an arena, which no step counts."""
    for crate in STEPPED:
        function = None
        for place, line in code(crate):
            found = FUNCTION.search(line)
            function = found[1] if found else function
            if WALK.search(line) and (place.partition(":")[0], function) != WHOLE_TREE:
                yield f"{place}: goes over all nodes without a step: {line}"


def hidden_memory():
    """Where code that is to take no memory gets at an allocator, or calls what takes memory of a vector's own."""
    for crate in WITHOUT_MEMORY:
        for place, line in code(crate):
            if ALLOCATOR.search(line):
                yield f"{place}: takes an allocator out of a vector: {line}"
    for crate in sorted({*WITHOUT_MEMORY, *PROMISED}):
        without = with_callees(crate, PROMISED.get(crate, set()))
        for name, lines in functions(crate):
            if crate in PROMISED and name not in without or crate not in PROMISED and is_handed_allocator(lines):
                continue
            for place, line in lines:
                if TAKES.search(line) and not QUEUED.search(f"{place} {line}"):
                    yield f"{place}: {name} takes memory, and is handed no allocator: {line.strip()}"


def is_handed_allocator(lines):
    """Whether a function has an allocator among its parameters."""
    behind = {place for place, _ in body(lines)}
    return any(HANDED_ALLOCATOR.search(line) for place, line in lines if place not in behind)


def with_callees(crate, names):
    """These functions of a crate, and those of it that they call, by others too, as their text shows."""
    calls = {}
    for name, lines in functions(crate):
        calls.setdefault(name, set()).update(called for _, line in body(lines) for called in re.findall(r"\b(\w+)\(", line))
    found, more = set(), set(names)
    while more:
        found |= more
        more = {called for name in more for called in calls.get(name, set()) if called in calls} - found
    return found


def body(lines):
    """The lines of a function behind its head, where the parameters and clauses stand."""
    indent = lines[0][1][:len(lines[0][1]) - len(lines[0][1].lstrip())]
    for number, (_, line) in enumerate(lines):
        if line == indent + "{" or line.endswith("{") and line[len(indent):len(indent) + 1].strip():
            return lines[number + 1:]
    return [] if lines[-1][1].endswith("{}") else lines


def stray_views():
    """Where a matrix whose reads are counted is read in a further way, or handed out."""
    for name, lines in functions("row_model"):
        for place, line in lines if COUNTED_ROWS in lines[0][0] else []:
            if VIEWED.search(line) and name not in VIEWS and not MAKES_VIEW.match(line) or HANDED_OUT.search(line):
                yield f"{place}: {name} reads the matrix in a further way, or hands it out: {line.strip()}"
    for place, line in code("row_model"):
        if COUNTED_ROWS in place and OPEN_VIEW.search(line):
            yield f"{place}: the matrix behind counted rows is open to others: {line}"


def uncounted_reads():
    """Where a search has a matrix in its hands, of which it could read rows without a step."""
    yield from stray_views()
    for crate in SEARCHING:
        inside = set()
        for place, line in code(crate):
            if HIDDEN.search(line) or MEANS.search(line):
                yield f"{place}: `m` or `steps` is another value here: {line}"
        for name, lines in functions(crate):
            inside.update(place for place, _ in lines)
            for place, line in lines:
                if MATRIX.search(line) and name not in UNCOUNTED[crate]:
                    yield f"{place}: {name} is handed a matrix, whose reads are not counted: {line.strip()}"
                if MATRIX.search(line) and name in HANDING and not PARAMETER.search(line):
                    yield f"{place}: {name} names a matrix besides the one that it hands on: {line.strip()}"
            for place, line in body(lines) if name in HANDING else []:
                if OF_MATRIX.search(HANDED.sub("", line)):
                    yield f"{place}: {name} does more with the matrix than to hand it on: {line.strip()}"
        for place, line in code(crate):
            if place not in inside and MATRIX.search(line) and not IMPORTS.match(line):
                yield f"{place}: a matrix is kept, whose reads are not counted: {line}"


def costing(crate, clause):
    """The functions of a crate with a clause which says that they cost a step."""
    return {name for name, lines in functions(crate) if any(clause.search(line) for _, line in lines)}


def of_lists(lines, makers, nested):
    """The names that are lists in a function, for all that its text shows: what it says, what makes one, and an item of a list of lists."""
    names = {name for name, owner in (found for _, line in lines for found in OF_NESTED.findall(line)) if owner in nested}
    names |= {found for _, line in lines for found in OF_LIST.findall(line)}
    for name, maker in (found for _, line in lines for found in MADE_LIST.findall(line)):
        if not maker or maker in makers:
            names.add(name)
    return names


def list_fields(crate):
    """The names of the fields of a crate's structs that are lists."""
    fields, is_inside = set(), False
    for path in sources(crate):
        for _, line in outside_tests(path):
            is_inside = re.match(r"(?:pub(?:\([^)]*\))? )?struct \w+.*\{$", line) is not None or is_inside and not line.startswith("}")
            found = FIELD.match(line) if is_inside else None
            if found and OF_LIST.search(line):
                fields.add(found[1])
    return fields


def compares_lists(line, names, fields):
    """Whether two lists are compared in a line, or one is copied, of these names and fields."""
    owned = rf"|(?:\w+\.)+(?:{'|'.join(sorted(fields))})" if fields else ""
    operand = rf"(?<![\w.])(?:{'|'.join(sorted(names)) or '(?!)'}{owned})\b(?:\.as_slice\(\)|\[[^\]]*\.\.[^\]]*\])?"
    return re.search(rf"{operand}\)* (?:[=!]=|[<>]=?) | (?:[=!]=|[<>]=?) (?:Some\(|Ok\()?[&*]*{operand}(?![\w.(\[])|{operand}\.(?:clone|eq|ne|cmp|lt|gt|le|ge)\(", line) is not None


def whole_lists(crate):
    """The structs of a crate that have a list, and can be compared or copied with all of it."""
    for path in sources(crate):
        derived, name = "", None
        for place, line in outside_tests(path):
            found = re.match(r"(?:pub(?:\([^)]*\))? )?(?:struct|enum) (\w+)", line)
            if found:
                name = found[1]
            elif line.startswith("#[derive("):
                derived = line
            elif line.startswith("}"):
                derived, name = "", None
            elif name and OF_LIST.search(line) and (COMPARED.match(derived) or COPIED.match(derived) and "&" not in line):
                yield f"{place}: {name} has a list, and can be compared or copied with all of it"


def is_paid(lines, number, sure, with_value):
    """Whether each turn of the loop that begins at a line of a function costs a step, for all that the text shows."""
    head = lines[number][1]
    outer = len(head) - len(head.lstrip())
    goes_on = NEXT.match(head)
    if goes_on and goes_on[1] in with_value:
        return True
    turn = [number] if head.lstrip().startswith("while") else []
    for after, (_, line) in enumerate(lines[number + 1:], number + 1):
        inner = len(line) - len(line.lstrip())
        if inner <= outer or CONTINUES.search(line):
            break
        if inner == outer + 4:
            turn.append(after)
    always = [(after, SURE.split(lines[after][1])[0]) for after in turn]
    return any(TICKS.search(line) or any(is_heeded(lines, after, sure[name]) for name in sure if name in CALLED.findall(line)) for after, line in always)


def is_heeded(lines, number, may_fail):
    """Whether a call that begins on a line costs a step: where it may fail, its error ends the function, and it alone may cost none."""
    if not may_fail:
        return True
    end = next((after for after in range(number, len(lines)) if lines[after][1].endswith((";", "{"))), len(lines) - 1)
    return "?" in lines[end][1]


def joined(lines):
    """The lines of a function, each with the calls that follow it behind a point on lines of their own."""
    whole = []
    for place, line in lines:
        if whole and line.lstrip().startswith("."):
            whole[-1] = whole[-1][0], whole[-1][1] + line.strip()
        else:
            whole.append((place, line))
    return whole


def free_turns(lines, listed, sure, with_value, lists, unticked, is_in_loop=False):
    """What may cost no step in a function: the line of each loop of which a turn may cost none, but for those over the listed names, and of each
    call that goes over a list. In a loop, a call of a function with such a line is one too."""
    loops, lines = [-1] * is_in_loop, joined(lines)
    for number, (place, line) in enumerate(lines):
        loop, inner = BLOCK.search(line), len(line) - len(line.lstrip())
        loops = [outer for outer in loops if outer < inner or not line.strip()]
        walks = len(OVER_LIST.findall(line)) + len(WALKS.findall(line)) + bool(compares_lists(line, *lists))
        walks += sum(called in unticked for called in re.findall(r"\b(\w+)\(", line)) * bool(loops)
        is_free = loop is not None and loop[1] not in listed and not is_paid(lines, number, sure, with_value)
        yield from [(place, line)] * (walks + is_free)
        loops += [inner] * bool(loop)


def misread_loops():
    """The samples of loops that are not told as they are."""
    for sample, costs in SAMPLES:
        lines = [("sample", line) for line in sample.split("\n")]
        if bool(list(free_turns(lines, set(), {"look": False, "expand": True}, {"m.next_counted", "next_halt"}, SAMPLE_LISTS, {"way_down"}))) == costs:
            yield f"scripts/walls.py: misreads a loop: {sample!r}"


def calls_itself(crate):
    """The functions of a crate that call themselves, by others too. A call by the name of another value is none of the function itself."""
    types = {found for _, line in code(crate) for found in re.findall(r"\b(?:struct|enum) (\w+)", line)}
    bodies = {}
    for name, lines in functions(crate):
        bodies.setdefault(name, []).extend(line for _, line in body(lines))
    calls = {name: set() for name in bodies}
    for name, lines in bodies.items():
        for owner, how, called in CALL.findall(" ".join(lines)):
            if called in bodies and (called != name or owner in {"", "self", "Self", *types}):
                calls[name].add(called)
    for name in calls:
        reached, ahead = set(), set(calls[name])
        while ahead:
            reached |= ahead
            ahead = {after for one in ahead for after in calls[one]} - reached
        if name in reached:
            yield name


def is_meant(entry, name, place):
    """Whether an entry of a list, a name or a file and a name, means the function of this name that begins at this place."""
    file, _, meant = entry.split()[0].rpartition("/")
    return name == meant and (not file or place.partition(":")[0].endswith(f"/{file}"))


def unlisted_turns(crate, entries, sure, with_value):
    """Where a turn of a crate may cost no step, and the entries do not say so."""
    makers = {name for name, lines in functions(crate) if any(GIVES_LIST.search(line) for _, line in lines)}
    fields, nested = list_fields(crate), {found for _, line in code(crate) for found in NESTED.findall(line)}
    looped = called_in_loops(crate)
    unticked = with_callers(crate, {entry.split()[0] for entry in entries if "/" not in entry} - {"new"})
    for name, lines in functions(crate):
        place = lines[0][0]
        entry = next((entry for entry in entries if is_meant(entry, name, place)), name)
        over, listed = entry.partition(" ")[2], entries.get(entry, 0)
        known = (sure, with_value, (of_lists(lines, makers, nested), fields), unticked, name in looped)
        turns = list(free_turns(body(lines), set(), *known))
        others = list(free_turns(body(lines), {over}, *known)) if over else []
        if len(others) != max(listed - 1, 0) * bool(over) or len(turns) != listed:
            yield f"{place}: of what may cost no step in {name} {listed} are listed, and there are {len(turns)}: {[line.strip() for _, line in others or turns]}"


def foreign_paths(line, types):
    """What a line names by the path of something else than a type of the repository: a function of a trait or of the kit."""
    if line.startswith(("#[", "ghost ", "use ", "pub use ")):
        return []
    found = [f"{owner}::{name}" for owner, name in PATH.findall(line) if owner not in types or name in DERIVED]
    return [path for path in found if path not in KIT_PATHS] + re.findall(r"<[^<>()]+>::[a-z]\w*", line)


def unread_lines(crate):
    """Where a crate has what the reading of its loops and of its memory does not know."""
    known = {"crate", "super", "self", *crates()} | {found for _, line in code(crate) for found in re.findall(r"^(?:pub(?:\([^)]*\))? )?mod (\w+);", line)}
    for path in sources(crate):
        for place, line in outside_tests(path):
            whole = line.split("//")[0].strip()
            yield from (f"{place}: has {what}: {whole}" for what, found in UNREAD.items() if found.search(whole))
            imported = IMPORTED.match(whole)
            if imported and imported[1] not in known and whole not in KIT_IMPORTS:
                yield f"{place}: imports what might go over a list: {whole}"
            if crate in WITHOUT_MEMORY and OTHER_ALLOCATOR.search(whole):
                yield f"{place}: calls something else an allocator: {whole}"


def foreign_calls():
    """Where a crate that searches, or that reduces a row in place, calls the kit by a path, which might go over a list or take memory, or has
    what this reading does not know."""
    types = {"Self", "self", "crate", "super"} | {found for crate in crates() for _, line in code(crate) for found in re.findall(r"\b(?:struct|enum) (\w+)", line)}
    for crate in dict.fromkeys([*SEARCHING, *WITHOUT_MEMORY]):
        yield from unread_lines(crate)
        for place, line in code(crate):
            for path in foreign_paths(line, types):
                yield f"{place}: calls {path} by its path: {line}"
    for sample, is_unread in UNREAD_SAMPLES:
        if any(found.search(sample) for found in UNREAD.values()) != is_unread:
            yield f"scripts/walls.py: misreads what it does not know: {sample!r}"
    for sample, paths in PATH_SAMPLES:
        if foreign_paths(sample, {"Tree", "Labels"}) != paths:
            yield f"scripts/walls.py: misreads a path: {sample!r}"


def uncounted_loops():
    """Where a turn of a search may cost no step."""
    for crate in SEARCHING:
        fails = costing(crate, COSTS_IF_OK)
        sure, with_value = {name: name in fails for name in costing(crate, COSTS)}, costing(crate, SOME_COSTS) | {"m.next_counted"}
        yield from unlisted_turns(crate, UNTICKED[crate], sure, with_value)
        for name in calls_itself(crate):
            yield f"crates/{crate}: {name} calls itself, and no loop shows what a turn costs"
        yield from whole_lists(crate)
    yield from loops_of_views()


def unlisted_walks():
    """Where a row that is reduced in place goes over a list, and no list says so."""
    for crate in WITHOUT_MEMORY:
        yield from unlisted_turns(crate, IN_PLACE[crate], {}, set())
        yield from unlisted_heads(crate)
        for name in calls_itself(crate):
            if name not in RECALLED.get(crate, set()):
                yield f"crates/{crate}: {name} calls itself, and no loop shows what it goes over"


def unlisted_heads(crate):
    """The functions of a crate whose loops do not have the heads that are listed."""
    for name, lines in functions(crate):
        heads = [line.strip() for _, line in joined(body(lines)) if BLOCK.search(line)]
        listed = next((heads for entry, heads in HEADS[crate].items() if is_meant(entry, name, lines[0][0])), [])
        if heads != listed:
            yield f"{lines[0][0]}: the loops of {name} begin with {heads}, and {listed} are listed"


def called_in_loops(crate):
    """The functions of a crate that are called in a loop of one of them, by others too."""
    calls, more = {}, set()
    for name, lines in functions(crate):
        loops = []
        for _, line in body(lines):
            inner, called = len(line) - len(line.lstrip()), set(re.findall(r"\b(\w+)\(", line))
            loops = [outer for outer in loops if outer < inner or not line.strip()]
            calls[name] = calls.get(name, set()) | called
            more |= called if loops else set()
            loops += [inner] * (BLOCK.search(line) is not None)
    found = set()
    while more:
        found |= more
        more = {called for name in more for called in calls.get(name, set())} - found
    return found & set(calls)


def with_callers(crate, names):
    """These functions of a crate, and those that call one of them, by others too."""
    calls = [(name, {called for _, line in body(lines) for called in re.findall(r"\b(\w+)\(", line)}) for name, lines in functions(crate)]
    found, more = set(), set(names)
    while more:
        found |= more
        more = {name for name, called in calls if called & found} - found
    return found


def loops_of_views():
    """Where a counted read goes over a list itself without a step."""
    for name, lines in functions("row_model"):
        if COUNTED_ROWS in lines[0][0] or name.endswith("_counted"):
            turns = list(free_turns(body(lines), set(), {}, set(), (set(), set()), set()))
            if len(turns) != VIEW_WALKS.get(name, 0):
                yield f"{lines[0][0]}: {name} goes over a list without a step: {[line.strip() for _, line in turns]}"


def shared_entries(crate, entries):
    """The entries that no function of a crate has for its name, or more than one."""
    found = [(name, lines[0][0]) for name, lines in functions(crate)]
    for entry in sorted(entries):
        number = sum(is_meant(entry, name, place) for name, place in found)
        if number != 1:
            yield f"crates/{crate}: {number} functions are meant by {entry}, and not one"


def shared_names():
    """The names of the lists of this script, and of functions whose calls cost a step, that no function has or more than one."""
    for crate in WITHOUT_MEMORY:
        yield from shared_entries(crate, IN_PLACE[crate])
    for crate in SEARCHING:
        found = [(name, lines[0][0]) for name, lines in functions(crate)]
        yield from shared_entries(crate, {*UNTICKED[crate], *UNCOUNTED[crate], *costing(crate, COSTS), *costing(crate, SOME_COSTS)})
        for name, place in found:
            if name == "tick" or name.endswith("_counted"):
                yield f"{place}: {name} has the name of what counts a step"
        paying = costing(crate, COSTS) | costing(crate, SOME_COSTS)
        for place, line in code(crate):
            for name in paying.intersection(GIVEN_NAME.findall(line)):
                yield f"{place}: gives another the name of {name}, whose calls cost a step: {line}"
    named = [name for name, lines in functions("row_model") if COUNTED_ROWS in lines[0][0]]
    for name in sorted(VIEWS):
        if named.count(name) != 1:
            yield f"crates/{COUNTED_ROWS}: {named.count(name)} functions are meant by {name}, and not one"


def solver_reads():
    """Where the solver does more with a matrix than to ask for its sizes, change its last row, and hand it on."""
    yield from (f"{place}: gives a matrix another name: {line}" for place, line in code(SOLVER) if OTHER_MATRIX.search(line))
    for name, lines in functions(SOLVER):
        for place, line in body(lines):
            if ITS_MATRIX.search(ASKED.sub("", line)):
                yield f"{place}: {name} does more with a matrix than to hand it on: {line.strip()}"


def uncounted_looks():
    """Where gaps are looked at outside the function that counts a step for it."""
    crate, counting, asks = GAP_LOOKS
    for name, lines in functions(crate):
        for place, line in lines:
            if asks.search(line) and name != counting:
                yield f"{place}: {name} looks at a gap without a step: {line.strip()}"
    for name, lines in functions(JUDGE):
        looks = sum(len(JUDGE_ASKS.findall(line)) for _, line in body(lines))
        if looks != JUDGE_LOOKS.get(name, 0) and not lines[0][0].partition(":")[0].endswith(UNCOUNTED_FILES):
            yield f"{lines[0][0]}: {name} looks at rows {looks} times, and {JUDGE_LOOKS.get(name, 0)} are listed"


def stray_searches():
    """Where the judge names a search, or a crate before the solver stands on one behind it."""
    for place, line in code(JUDGE):
        for word in SEARCHES.intersection(WORD.findall(line)):
            yield f"{place}: names the search {word}"
    below = build.stands_on()
    for crate in BEFORE_SOLVER:
        for one in sorted(BEHIND_SOLVER.intersection(below[crate])):
            yield f"crates.txt: {crate} stands on {one}, and not by {SOLVER}"


def heard_sinks():
    """Where the top call does more with the sink of errors than to offer the line of a failure to it."""
    for name, lines in functions("pq_cli"):
        inside = body(lines) if lines[0][0].startswith(f"{TOP}:") else []
        for place, line in lines[:len(lines) - len(inside)] if inside else []:
            if "&mut E" in line and "err: &mut E" not in line:
                yield f"{place}: the sink of errors has another name here: {line.strip()}"
        for place, line in inside:
            if "err" in WORD.findall(line) and line.strip() != TOLD.get(name):
                yield f"{place}: {name} does more with the sink of errors than to offer a line to it: {line.strip()}"


def idle_functions():
    """The functions of the scripts that nothing calls or hands on."""
    trees = {path: ast.parse(open(path, encoding="utf-8").read()) for folder in PYTHON for path in files(folder, ".py")}
    used = {node.id if isinstance(node, ast.Name) else node.attr
            for tree in trees.values() for node in ast.walk(tree) if isinstance(node, (ast.Name, ast.Attribute))}
    for path, tree in trees.items():
        for node in ast.walk(tree):
            if isinstance(node, ast.FunctionDef) and node.name not in used and not node.name.startswith("__"):
                yield f"{os.path.relpath(path, HOME)}:{node.lineno}: nothing calls {node.name}"


def text_of(path):
    """The text of a file."""
    with open(os.path.join(HOME, path), encoding="utf-8") as stream:
        return stream.read()


def pages():
    """The pages of the repository, by their names in it."""
    return ["README.md", *(os.path.relpath(path, HOME) for path in files("docs", ".md"))]


def unknown_contracts(names):
    """What the page of contracts names and its crate lacks."""
    items = {name: {found for _, line in code(name) for found in ITEM.findall(line)} for name in names}
    here = []
    for place, line in numbered(os.path.join(HOME, CONTRACTS)):
        cells = line.split("|")[1:-1]
        if len(cells) == 3:
            here = NAMED.findall(cells[0]) or here
            for name in NAMED.findall(cells[1]):
                if not any(name.split("::")[-1] in items.get(crate, ()) for crate in here):
                    yield f"{place}: {' and '.join(here)} has no {name}"


def floors(path, crate):
    """The crates of each floor, in their order: in a file with a heading for each floor, what the pattern finds in the lines below it."""
    found, floor = {}, None
    for _, line in numbered(os.path.join(HOME, path)):
        heading = FLOOR.match(line)
        if heading:
            floor = found.setdefault(heading[1], [])
        elif floor is not None:
            floor += crate.findall(line)
    return found


def untold(names):
    """The crates, the clauses of the top call and the public laws that the pages lack."""
    house, listed = floors(HOUSE, HOUSE_CRATE), floors("crates.txt", LISTED_CRATE)
    for floor in sorted(house.keys() | listed.keys(), key=int):
        if house.get(floor) != listed.get(floor):
            yield f"{HOUSE}: floor {floor} has {house.get(floor)}, and crates.txt {listed.get(floor)}"
    contracts = re.findall(r"^pub fn run(?:_counted)?\b.*?^\{", text_of(TOP), re.S | re.M)
    promised = set(NAMED.findall(text_of(PROMISES)))
    for name in dict.fromkeys(name for contract in contracts for name in re.findall(r"^ +ensures (\w+)", contract, re.M)):
        if name not in promised:
            yield f"{PROMISES}: does not name {name}"
    told = {name for page in pages() for name in NAMED.findall(WRITTEN.sub("", text_of(page)))}
    for place, line in (found for name in names for found in code(name)):
        for law in LAW.findall(line) if "src/lib.rt:" in place else []:
            if law not in told:
                yield f"{place}: no page names {law}"


def upward_edges():
    """Where crates.txt lists a crate outside a floor, or before one that it stands on."""
    has_floor, listed, lines = False, set(), list(numbered(os.path.join(HOME, "crates.txt")))
    known = set(crates())
    for place, line in lines:
        has_floor = has_floor or bool(FLOOR.match(line))
        name, colon, below = line.split("#")[0].partition(":")
        if not colon:
            continue
        if not has_floor:
            yield f"{place}: {name} is on no floor"
        for one in below.split():
            if one in known and one not in listed:
                yield f"{place}: {name} stands on {one}, which is above it"
        listed.add(name.strip())


def defined(crate):
    """Each name that a crate's definitions define, with where it stands."""
    for path in files(os.path.join("crates", crate, "specs"), ".antt"):
        is_mutual = False
        for place, line in numbered(path):
            if line.strip() and not line.startswith((" ", "--")):
                is_mutual = MUTUAL.match(line) is not None
            found = DEFINED_IN_MUTUAL.match(line) if is_mutual else DEFINED.match(line)
            if found:
                yield found[1], place


def names_with_two_meanings():
    """The names of definitions that stand twice in a crate, or in one and in another that it stands on."""
    own, below = {}, build.stands_on()
    for crate in below:
        own[crate] = {}
        for name, place in defined(crate):
            if name in own[crate]:
                yield f"{place}: {name} stands at {own[crate][name]} too"
            own[crate][name] = place
        for one in below[crate]:
            for name in sorted(own[crate].keys() & own.get(one, {}).keys()):
                yield f"{own[crate][name]}: {name} stands at {own[one][name]} too, and {crate} stands on {one}"


def main():
    names = crates()
    failed = 0
    rules = [foreign_proofs(names), itertools.chain(own_counters(names), lent_to_unlent()), uncounted_walks(), hidden_memory(), idle_functions(),
             itertools.chain(unknown_contracts(names), untold(names)), upward_edges(), names_with_two_meanings(),
             itertools.chain(uncounted_reads(), uncounted_looks()), uncounted_loops(), stray_searches(), solver_reads(), misread_loops(), shared_names(),
             unlisted_walks(), heard_sinks(), foreign_calls()]
    for broken in rules:
        found = list(broken)
        failed += bool(found)
        for line in found:
            print(f"FAILED {line}")
    print(f"{len(rules) - failed} passed, {failed} failed")
    return 1 if failed else 0


if __name__ == "__main__":
    sys.exit(main())
