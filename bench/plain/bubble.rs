// The yardstick: the bubble pass of Booth and Lueker over the rows that the crate bubble_bench draws, in plain Rust. It asks them of one
// Q-node over 2048 columns, so many rounds as its first word says, and prints the answers of the last round.
use std::env;

const COLUMNS: u32 = 2_048;
const ROWS: usize = 100_000;
const FEWEST: u32 = 2;
const MOST: u32 = 60;
const NONE: u32 = u32::MAX;

#[derive(Clone, Copy, PartialEq, Eq)]
enum Shape {
    Leaf,
    P,
    Q,
}

// A node of the tree. Of the children of a Q-node only the two at its ends know it; `first` is one of them.
#[derive(Clone, Copy)]
struct Node {
    shape: Shape,
    parent: u32,
    near: [u32; 2],
    first: u32,
    children: u32,
}

#[derive(Clone, Copy, PartialEq, Eq)]
enum Stage {
    Unseen,
    Queued,
    Blocked,
    Top,
    InRun,
    Placed(u32),
}

#[derive(Clone, Copy, PartialEq, Eq)]
enum Label {
    Empty,
    Partial,
    Full,
}

// What the pass knows of a node.
#[derive(Clone, Copy)]
struct Mark {
    stage: Stage,
    label: Label,
    // The placed nodes below it as a chain, how many they are, and how many of them have which label.
    first: u32,
    next: u32,
    count: u32,
    full: u32,
    partial: u32,
}

const UNSEEN: Mark = Mark {
    stage: Stage::Unseen,
    label: Label::Empty,
    first: NONE,
    next: NONE,
    count: 0,
    full: 0,
    partial: 0,
};

enum Found {
    Root(u32),
    Inside,
    Split,
}

struct Pass<'a> {
    nodes: &'a [Node],
    marks: Vec<Mark>,
    // The nodes that were seen; those from `head` on have no turn yet.
    queue: Vec<u32>,
    head: usize,
    // How many are blocked or at the top.
    parked: u32,
    // The labelled nodes, each after its children.
    labelled: Vec<u32>,
}

impl<'a> Pass<'a> {
    fn new(nodes: &'a [Node]) -> Self {
        Pass {
            nodes,
            marks: vec![UNSEEN; nodes.len()],
            queue: Vec::with_capacity(nodes.len()),
            head: 0,
            parked: 0,
            labelled: Vec::with_capacity(nodes.len()),
        }
    }

    fn stage(&self, n: u32) -> Stage {
        self.marks[n as usize].stage
    }

    fn set_stage(&mut self, n: u32, stage: Stage) {
        self.marks[n as usize].stage = stage;
    }

    fn push(&mut self, n: u32) {
        self.set_stage(n, Stage::Queued);
        self.queue.push(n);
    }

    fn clear(&mut self) {
        for n in self.queue.drain(..) {
            self.marks[n as usize] = UNSEEN;
        }
        self.labelled.clear();
        self.head = 0;
        self.parked = 0;
    }

    // The node above, which the node itself or a neighbour knows.
    fn above(&self, node: &Node) -> Option<u32> {
        if node.parent != NONE {
            return Some(node.parent);
        }
        node.near.iter().find_map(|&near| match near {
            NONE => None,
            _ => match self.stage(near) {
                Stage::Placed(above) => Some(above),
                _ => None,
            },
        })
    }

    // Gives the blocked nodes from `next` on, beside `before`, this stage.
    fn walk(&mut self, mut before: u32, mut next: u32, stage: Stage) {
        while next != NONE && self.stage(next) == Stage::Blocked {
            let near = self.nodes[next as usize].near;
            self.set_stage(next, stage);
            self.parked -= 1;
            let beyond = if near[0] == before { near[1] } else { near[0] };
            before = next;
            next = beyond;
        }
    }

    fn turn(&mut self) {
        let n = self.queue[self.head];
        self.head += 1;
        let node = self.nodes[n as usize];
        if let Some(above) = self.above(&node) {
            if self.stage(above) == Stage::Unseen {
                self.push(above);
            }
            self.set_stage(n, Stage::Placed(above));
            self.walk(n, node.near[0], Stage::Placed(above));
            self.walk(n, node.near[1], Stage::Placed(above));
        } else {
            self.parked += 1;
            let blocked = node.near[0] != NONE;
            self.set_stage(n, if blocked { Stage::Blocked } else { Stage::Top });
        }
    }

    // Climbs until one node is left that holds the row, or the rest is parked.
    fn climb(&mut self, row: &[u32]) -> Found {
        for &column in row {
            self.push(column - 1);
        }
        while self.head < self.queue.len() && !(self.head + 1 == self.queue.len() && self.parked == 0) {
            self.turn();
        }
        if self.head < self.queue.len() {
            return Found::Root(self.queue[self.head]);
        }
        let is_parked = |&n: &u32| matches!(self.stage(n), Stage::Blocked | Stage::Top);
        let Some(first) = self.queue.iter().copied().find(is_parked) else {
            return Found::Split;
        };
        if self.parked == 1 {
            return Found::Root(first);
        }
        if self.stage(first) == Stage::Top {
            return Found::Split;
        }
        let near = self.nodes[first as usize].near;
        self.set_stage(first, Stage::InRun);
        self.parked -= 1;
        self.walk(first, near[0], Stage::InRun);
        self.walk(first, near[1], Stage::InRun);
        if self.parked == 0 { Found::Inside } else { Found::Split }
    }

    // Hangs each node that was seen below the node above it.
    fn link(&mut self) {
        for &n in &self.queue {
            if let Stage::Placed(above) = self.marks[n as usize].stage {
                self.marks[n as usize].next = self.marks[above as usize].first;
                self.marks[above as usize].first = n;
                self.marks[above as usize].count += 1;
            }
        }
    }

    // From a node that holds the row down to the smallest one.
    fn descend(&mut self, top: u32) -> u32 {
        let mut root = top;
        while self.marks[root as usize].count == 1 {
            let below = self.marks[root as usize].first;
            self.marks[root as usize].first = NONE;
            self.marks[root as usize].count = 0;
            root = below;
        }
        root
    }

    // Whether the full children of a Q-node are all its children: they are read from its end.
    fn is_full_run(&self, node: &Node, full: u32) -> bool {
        let (mut before, mut next) = (NONE, node.first);
        for _ in 0..full {
            if next == NONE || self.marks[next as usize].label != Label::Full {
                return false;
            }
            let near = self.nodes[next as usize].near;
            let beyond = if near[0] == before { near[1] } else { near[0] };
            before = next;
            next = beyond;
        }
        next == NONE
    }

    fn label(&self, n: u32) -> Label {
        let node = &self.nodes[n as usize];
        let full = self.marks[n as usize].full;
        let is_full = match node.shape {
            Shape::Leaf => true,
            Shape::P => full == node.children,
            Shape::Q => self.is_full_run(node, full),
        };
        if is_full { Label::Full } else { Label::Partial }
    }

    // Labels the nodes below what was found, children first.
    fn fill(&mut self, row: &[u32]) {
        self.labelled.extend(row.iter().map(|column| column - 1));
        let mut done = 0;
        while done < self.labelled.len() {
            let n = self.labelled[done];
            done += 1;
            let label = self.label(n);
            self.marks[n as usize].label = label;
            if let Stage::Placed(above) = self.stage(n) {
                let mark = &mut self.marks[above as usize];
                mark.full += u32::from(label == Label::Full);
                mark.partial += u32::from(label == Label::Partial);
                if mark.full + mark.partial == mark.count {
                    self.labelled.push(above);
                }
            }
        }
    }

    fn bubble(&mut self, row: &[u32]) -> Found {
        self.clear();
        let found = self.climb(row);
        match found {
            Found::Split => Found::Split,
            Found::Inside => {
                self.link();
                self.fill(row);
                Found::Inside
            }
            Found::Root(top) => {
                self.link();
                let root = self.descend(top);
                self.set_stage(root, Stage::InRun);
                self.fill(row);
                Found::Root(root)
            }
        }
    }
}

// One node over all columns in rising order, a Q-node where they are three or more. Leaf a - 1 is column a, and the node comes after
// the leaves.
fn line() -> Vec<Node> {
    let mut nodes: Vec<Node> = (0..COLUMNS)
        .map(|n| Node {
            shape: Shape::Leaf,
            parent: if n == 0 || n + 1 == COLUMNS { COLUMNS } else { NONE },
            near: [if n == 0 { 1 } else { n - 1 }, if n == 0 || n + 1 == COLUMNS { NONE } else { n + 1 }],
            first: NONE,
            children: 0,
        })
        .collect();
    let shape = if COLUMNS > 2 { Shape::Q } else { Shape::P };
    nodes.push(Node { shape, parent: NONE, near: [NONE, NONE], first: 0, children: COLUMNS });
    nodes
}

struct Draws(u64);

impl Draws {
    // The generator of Park and Miller, with the multiplier 48271.
    fn below(&mut self, m: u32) -> u32 {
        self.0 = self.0 * 48_271 % 2_147_483_647;
        self.0 as u32 % m
    }
}

// The rows one after another, and where each ends.
fn rows() -> (Vec<u32>, Vec<usize>) {
    let mut draws = Draws(1);
    let (mut members, mut ends) = (Vec::new(), Vec::new());
    for _ in 0..ROWS {
        let len = FEWEST + draws.below(MOST - FEWEST + 1);
        let first = 1 + draws.below(COLUMNS - len + 1);
        members.extend(first..first + len);
        ends.push(members.len());
    }
    (members, ends)
}

fn main() {
    let rounds: u32 = env::args().nth(1).expect("a number of rounds").parse().expect("a number of rounds");
    let nodes = line();
    let (members, ends) = rows();
    let mut pass = Pass::new(&nodes);
    let (mut root, mut inside, mut split) = (0, 0, 0);
    for _ in 0..rounds {
        (root, inside, split) = (0, 0, 0);
        let mut from = 0;
        for &end in &ends {
            match pass.bubble(&members[from..end]) {
                Found::Root(n) => {
                    assert!(nodes[n as usize].shape != Shape::Leaf);
                    root += 1;
                }
                Found::Inside => inside += 1,
                Found::Split => split += 1,
            }
            from = end;
        }
    }
    println!("root {root} inside {inside} split {split}");
}
