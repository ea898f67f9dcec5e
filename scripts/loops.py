# What scripts/walls.py knows of loops: those of which a turn may cost no step, and samples by which it tries how it reads them.

# The functions of the crates that search with what may cost no step, and how often each has it: a loop of which a turn may cost none, a
# call that goes over a list, or, where a loop leads there, a call of one of these functions. Behind a name, the one over which its only
# loop goes. They go over a table that is set up or handed out once; up a set of pairs; over rows of which some have no ones; over the
# lines of a walk that is found; over the few columns, rows, ways and pivots that an attempt takes. Or they are the judge's.
UNTICKED = {
    "odd_cycle": {"short_cycle": 4, "cut": 1, "has_flip": 1, "sorted_columns": 2, "is_rising": 1, "is_folded": 2, "marks.rt/new": 1, "numbers.rt/new": 1},
    "pair_classes": {"classes_of k": 2, "unite_along": 1, "unite_with": 2, "unite": 2, "each_alone": 1, "root_of": 1, "flatten": 1},
    "open_gaps": {"cover": 1, "of_parts": 1, "gaps_of": 3, "take_row": 1, "new": 1},
    "walk_search": {"way_down": 2, "add_way_up": 1, "closed_walk": 2, "rows_by_column k": 1, "joined": 1, "simple_cycle": 1, "new": 1, "search": 3, "search_along": 2},
    "border_ways": {
        "walk_around": 3, "add_forth": 1, "add_back": 1, "columns_near": 2, "openers": 2, "odd_links": 3, "ended_there": 1,
        "odd_circle": 4, "circle_by": 4, "first_left": 2, "place_among": 1, "spread": 3, "path_up": 1, "add_lines": 1, "settle": 4, "add_spread": 1,
    },
    "short_cycles": {
        "is_odd_walk": 1, "lines_of": 1, "part_of": 2, "without_repeats": 4, "is_folded_walk": 1, "lines_in": 1, "any_cycle": 1, "quick_cycle": 1,
    },
}
# The same of the crates that reduce a row in place, where no call of the arena is taken for a step. They set tables up and give a tree out;
# go over the columns of a row, over the nodes that were seen or labelled, and over those that hang in a chain; or have a name that a call
# has which goes over a list.
IN_PLACE = {
    "pq_arena": {
        "arena.rt/new": 3, "tree_below": 6, "children_of": 3, "ring_children": 1, "run_children": 2, "bare_nodes": 1, "is_one_tree": 1, "has_two_each": 1,
    },
    "bubble_pass": {
        "chains.rt/new": 3, "descend": 1, "link": 1, "climber.rt/new": 2, "walk": 1, "turn": 2, "climb": 2, "begin": 1, "first_parked": 1, "grow": 1,
        "labels.rt/new": 4, "judge": 1, "start": 1, "sweep": 2, "bubble": 1, "tables.rt/new": 2, "tables.rt/clear": 1, "tables.rt/find": 3, "work.rt/find": 1,
    },
    "full_pass": {
        "find_beside": 1, "find_between": 1, "climb": 1, "count": 2, "entries.rt/new": 3, "clear_labels": 1, "clear_tallies": 1, "list": 1, "join": 2,
        "rise": 2, "run": 2, "work.rt/new": 2,
    },
    "templates_p": {"child_with": 1, "group_full": 1, "merge": 1, "move_under": 1, "divide": 1},
    "templates_q": {"splice_in": 1, "pass": 1},
    "row_reduce": {"apply_chosen": 1, "decide": 1, "new": 1},
}
# The heads of the loops in these functions, so that none goes over more than it does.
HEADS = {
    "pq_arena": {
        "arena.rt/new": ["for i in 0..c {"],
        "tree_below": ["for number in &numbers {", "for number in &numbers {"],
        "ring_children": ["for _ in 0..count {"],
        "run_children": ["for _ in 0..nodes.len() {"],
        "bare_nodes": ["for i in 0..count {"],
        "is_one_tree": ["for n in 0..self.nodes.len() as u32 {"],
        "has_two_each": ["for n in 0..self.nodes.len() as u32 {"],
    },
    "bubble_pass": {
        "descend": ["while self.count_of(r) == 1 {"],
        "link": ["while i < climber.tail {"],
        "walk": ["while let Some(x) = self.blocked_at(next) {"],
        "climb": ["while self.goes_on() {"],
        "begin": ["for column in row {"],
        "first_parked": ["while i < self.tail {"],
        "grow": ["while let Some(x) = self.blocked_at(next) {"],
        "judge": ["while left > 0 {"],
        "start": ["while i < row.len() {"],
        "sweep": ["while done < self.len {"],
        "tables.rt/clear": ["while i < self.climber.tail {"],
    },
    "full_pass": {
        "find_beside": ["for column in row {"],
        "find_between": ["for column in row {"],
        "climb": ["loop {"],
        "count": ["for column in row {"],
        "clear_labels": ["for label in self.labels.iter_mut() {"],
        "clear_tallies": ["for tally in self.tallies.iter_mut() {"],
        "list": ["for i in 0..count {"],
        "rise": ["loop {"],
        "run": ["for column in row {"],
    },
    "templates_p": {
        "child_with": ["while left > 0 {"],
        "group_full": ["while left > 0 {"],
        "move_under": ["for member in members {"],
    },
    "templates_q": {
        "pass": ["while let Some(x) = wanted_at(work, wanted, gap.next) {"],
    },
    "row_reduce": {
        "apply_chosen": ["for i in 0..count {"],
        "decide": ["for (i, node) in work.nodes().iter().enumerate() {"],
    },
}
# Of their functions those that call themselves, or another of their name.
RECALLED = {"pq_arena": {"tree_below"}, "bubble_pass": {"new"}, "full_pass": {"new", "fill", "hits_at", "hit"}}
# Loops, and whether a turn of each costs a step.
SAMPLES = [
    ("for a in columns {\n    steps.tick();\n}", True),
    ("for a in columns {\n    if a > 1 {\n        steps.tick();\n    }\n}", False),
    ("for a in columns {\n    if a == b {\n        continue;\n    }\n    steps.tick();\n}", False),
    ("for a in columns {\n    let had = a > 1 && m.has_counted(k, a, steps);\n}", False),
    ("for a in columns {\n    let had = if a > 1 { m.has_counted(k, a, steps) } else { false };\n}", False),
    ("for a in columns {\n    if a > 1 {\n        b += 1;\n    } else if m.has_counted(k, a, steps) {\n        b += 2;\n    }\n}", False),
    ("for a in found(m.len_counted(k, steps)) {\n    sum += a;\n}", False),
    ("while let Some(a) = m.next_counted(k, i, steps) {\n    i += 1;\n}", True),
    ("while let Some(a) = next_halt(front, at, left, steps) {\n    at = a;\n}", True),
    ("for a in columns {\n    let next = m.next_counted(k, i, steps);\n}", False),
    ("for a in columns {\n    if look(m, a, steps)? {\n        return Ok(None);\n    }\n}", True),
    ("let last = loop {\n    at += 1;\n};", False),
    ("let last = nodes.iter().rposition(|node| node.pair == pair);", False),
    ("let there = nodes.iter().position(is_there);", False),
    ("let there = columns.contains(&a);", False),
    ("let some = columns.iter().any(|a| m.has_counted(k, *a, steps));", False),
    ("let last = front.positions.iter().last();", False),
    ("let most = front.positions.iter().max();", False),
    ("'rows: for a in columns {\n    for b in columns {\n        continue 'rows;\n    }\n    steps.tick();\n}", False),
    ("let i = 0; while i < count {\n    i += 1;\n}", False),
    ("if loop {\n    break true;\n} {}", False),
    ("for a in columns {\n    other.steps.tick();\n}", False),
    ("for a in columns {\n    near.look(a);\n}", False),
    ("for a in columns {\n    let had = near.has_counted(k, a, steps);\n}", False),
    ("for a in columns {\n    let had = has_counted(k, a, steps);\n}", False),
    ("for a in columns {\n    let had = m.has_counted(k, a, steps);\n}", True),
    ("for a in columns {\n    let had = front.m.has_counted(k, a, steps);\n}", True),
    ("while let Some(a) = near.next_counted(k, i, steps) {\n    i += 1;\n}", False),
    ("while let Some(a) = near.next_halt(k, i, steps) {\n    i += 1;\n}", False),
    ("while let Some(a) = next_counted(k, i, steps) {\n    i += 1;\n}", False),
    ("let marks = vec![in alloc; 0; count]?;", False),
    ("let marks = [0; COUNT];", False),
    ("let marks = vec![in alloc; first]?;", True),
    ("let same = order == before;", False),
    ("if a > 1 && before != *order {\n    b += 1;\n}", False),
    ("if met.columns == before {\n    b += 1;\n}", False),
    ("if order[1..] < before[..a] {\n    b += 1;\n}", False),
    ("if before.as_slice() == kept {\n    b += 1;\n}", False),
    ("let before = order.clone()?;", False),
    ("let same = order.len() == before.len();", True),
    ("let same = order[a] == before[b];", True),
    ("let same = columns == m.columns();", True),
    ("order.insert(0, a)?;", False),
    ("order.resize(count, 0)?;", False),
    ("order.append(&mut before)?;", False),
    ("let places = positions(alloc, order)?;", False),
    ("let marks = Marks::new(alloc, further, columns)?;", False),
    ("let way = way_down(alloc, forest, a)?;", True),
    ("for a in columns {\n    steps.tick();\n    let way = way_down(alloc, forest, a)?;\n}", False),
    ("for a in columns {\n    steps.tick();\n}\nlet way = way_down(alloc, forest, a)?;", True),
    ("for &a in columns {\n    b += 1;\n}", False),
    ("for ((a, b), c) in columns {\n    d += 1;\n}", False),
    ("let most = forest\n    .iter()\n    .map(f)\n    .max();", False),
    ("let most = (0..count).map(f).max();", False),
    ("let last = rows.windows(2).map(f).last();", False),
    ("let all = nodes.iter();\nlet last = all.last();", False),
    ("let all = self.nodes.iter().rev();\nlet most = all.max();", False),
    ("let parts = row.split(is_gap);\nlet last = parts.last();", False),
    ("let most = nodes.iter_mut().map(f).max();", False),
    ("let all = first.sum::<u32>();", False),
    ("let has = <[u32]>::contains(rows, &a);", False),
    ("let same = Some(order) == holders.first();", False),
    ("for a in columns {\n    expand(a, steps)?;\n}", True),
    ("for a in columns {\n    let found = expand(\n        a,\n        steps,\n    )?;\n}", True),
    ("for a in columns {\n    let _found = expand(a, steps);\n}", False),
]
# The lists of these, and the fields that are lists.
SAMPLE_LISTS = ({"order", "before"}, {"columns"})
# Lines, and what each names by the path of a trait or of the kit.
PATH_SAMPLES = [
    ("let last = Iterator::last(columns.iter());", ["Iterator::last"]),
    ("let same = PartialEq::eq(&order, &before);", ["PartialEq::eq"]),
    ("let copy = Clone::clone(&order)?;", ["Clone::clone"]),
    ("let most = cmp::max(&order, &before);", ["cmp::max"]),
    ("let most = std::cmp::max(&order, &before);", ["cmp::max"]),
    ("let copy = Labels::clone(&labels)?;", ["Labels::clone"]),
    ("let last = <Rows as Iterator>::last(rows);", ["<Rows as Iterator>::last"]),
    ("let count = Iterator::count;", ["Iterator::count"]),
    ("let filled = Vec::from_elem(alloc, 0, count)?;", ["Vec::from_elem"]),
    ("let columns = Vec::new(alloc);", []),
    ("let tree = Tree::leaf(column);", []),
    ("Shape::Leaf(column) => None,", []),
]
# Lines, and whether the reading of text does not know what each has.
UNREAD_SAMPLES = [
    ("const fn far(path: &[Line]) -> u32 {", True),
    ("unsafe fn far(path: &[Line]) -> u32 {", True),
    ("macro_rules! each {", True),
    ("use row_model::positions as places;", True),
    ("Matrix, positions as places,", True),
    ("type Path = Vec<Line>;", True),
    ("fn is_same<T: PartialEq>(one: &T, other: &T) -> bool {", True),
    ("fn is_same<T>(one: &T, other: &T) -> bool where T: Eq {", True),
    ("let far = far::<u32>(path);", True),
    ("CountedMatrix::push_row(&mut rows, row)?;", True),
    ("let first = path.split(is_gap).next();", True),
    ("let marked = is_marked(\"//\");", True),
    ("pub const LEAST: u32 = 1;", False),
    ("fn far<L: Ledger>(path: &[Line], steps: &mut Steps<L>) -> u32 {", False),
    ("let wide = count as usize;", False),
    ("let (first, others) = path.split_first()?;", False),
]
