// A plain Rust machine with the same arrays and the same order of steps, to time the proved one against. It trusts its two texts.
use std::collections::HashMap;
use std::env;
use std::fs;

const CELLS: usize = 2048;
const NAMES: usize = 2048;
const WAITING: usize = 1024;
const ARITY: usize = 4;

struct Rule {
    sides: Vec<u16>,
    nodes: Vec<(u16, Vec<u16>)>,
    names: usize,
}

#[derive(Clone, Copy, PartialEq)]
enum Pair {
    Nothing,
    Straight(u16),
    Turned(u16),
}

struct Table {
    arities: Vec<usize>,
    pairs: Vec<Pair>,
    rules: Vec<Rule>,
}

#[derive(Clone)]
struct State {
    symbols: Vec<u16>,
    arguments: Vec<u16>,
    names: Vec<u16>,
    waiting: Vec<u16>,
    waits: usize,
    stuck: Vec<u16>,
    loops: u32,
    cells_used: usize,
    names_used: usize,
    low_cell: usize,
    low_name: usize,
}

// Reads one term: its code; cells are pushed outer before inner, names are numbered by `names`.
fn term(
    text: &[u8],
    at: &mut usize,
    agents: &HashMap<Vec<u8>, usize>,
    cells: &mut Vec<(u16, Vec<u16>)>,
    names: &mut HashMap<Vec<u8>, usize>,
    next: &mut usize,
) -> u16 {
    let from = *at;
    while *at < text.len() && (text[*at].is_ascii_alphanumeric() || text[*at] == b'_') {
        *at += 1;
    }
    let word = text[from..*at].to_vec();
    if let Some(&s) = agents.get(&word) {
        let c = cells.len();
        cells.push((s as u16 + 1, Vec::new()));
        if *at < text.len() && text[*at] == b'(' {
            while text[*at] != b')' {
                *at += 1;
                let a = term(text, at, agents, cells, names, next);
                cells[c].1.push(a);
            }
            *at += 1;
        }
        return (2 * c + 1) as u16;
    }
    let n = *names.entry(word).or_insert_with(|| {
        *next += 1;
        *next - 1
    });
    (2 * n) as u16
}

fn load(rules: &str, net: &str) -> (Table, State) {
    let mut agents = HashMap::new();
    let mut t = Table { arities: Vec::new(), pairs: vec![Pair::Nothing; 64 * 64], rules: Vec::new() };
    for line in rules.lines() {
        let f: Vec<&str> = line.split('\t').collect();
        if f[0] == "agent" {
            agents.insert(f[1].as_bytes().to_vec(), t.arities.len());
            t.arities.push(f[2].parse().unwrap());
        }
        if f[0] == "rule" {
            let mut names = HashMap::new();
            let mut heads = Vec::new();
            for (k, left) in f[1..3].iter().enumerate() {
                let parts: Vec<&str> = left.split(|c| c == '(' || c == ')' || c == ',').filter(|w| !w.is_empty()).collect();
                heads.push(agents[parts[0].as_bytes()]);
                for (j, w) in parts[1..].iter().enumerate() {
                    names.insert(w.as_bytes().to_vec(), ARITY * k + j);
                }
            }
            let mut next = 2 * ARITY;
            let mut nodes = Vec::new();
            let mut sides = Vec::new();
            for g in &f[3..] {
                let mut at = 0;
                sides.push(term(g.as_bytes(), &mut at, &agents, &mut nodes, &mut names, &mut next));
            }
            let n = t.rules.len() as u16;
            t.pairs[64 * heads[1] + heads[0]] = Pair::Turned(n);
            t.pairs[64 * heads[0] + heads[1]] = Pair::Straight(n);
            t.rules.push(Rule { sides, nodes, names: next - 2 * ARITY });
        }
    }
    let mut s = State {
        symbols: vec![0; CELLS],
        arguments: vec![0; ARITY * CELLS],
        names: vec![0; NAMES],
        waiting: vec![0; 2 * WAITING],
        waits: 0,
        stuck: Vec::new(),
        loops: 0,
        cells_used: 0,
        names_used: 0,
        low_cell: 0,
        low_name: 0,
    };
    let mut names = HashMap::new();
    let mut next = 0;
    let mut cells = Vec::new();
    let mut eqs = Vec::new();
    for line in net.lines().skip(1) {
        for g in line.split('\t').skip(1) {
            let mut at = 0;
            let code = term(g.as_bytes(), &mut at, &agents, &mut cells, &mut names, &mut next);
            if line.starts_with("eq") {
                eqs.push(code);
            }
        }
    }
    for (c, (symbol, args)) in cells.iter().enumerate() {
        s.symbols[c] = *symbol;
        s.arguments[ARITY * c..ARITY * c + args.len()].copy_from_slice(args);
    }
    for x in 0..next {
        s.names[x] = 1;
    }
    for e in eqs.chunks(2).rev() {
        s.waiting[2 * s.waits] = e[0];
        s.waiting[2 * s.waits + 1] = e[1];
        s.waits += 1;
    }
    s.cells_used = cells.len();
    s.names_used = next;
    (t, s)
}

fn put(s: &mut State, l: u16, r: u16) {
    s.waiting[2 * s.waits] = l;
    s.waiting[2 * s.waits + 1] = r;
    s.waits += 1;
}

fn free_name(s: &mut State, x: usize) {
    s.names[x] = 0;
    s.names_used -= 1;
    s.low_name = s.low_name.min(x);
}

// The end that a side stands for; its tie or join is dropped.
fn follow(s: &mut State, side: u16) -> u16 {
    if side % 2 == 1 {
        return side;
    }
    let x = (side / 2) as usize;
    let w = s.names[x];
    if w < 2 {
        return side;
    }
    free_name(s, x);
    let end = w - 2;
    if end % 2 == 0 {
        s.names[(end / 2) as usize] = 1;
    }
    end
}

fn wire(s: &mut State, l: u16, r: u16) {
    let a = follow(s, l);
    let b = follow(s, r);
    match (a % 2, b % 2) {
        (0, 0) if a == b => {
            free_name(s, (a / 2) as usize);
            s.loops += 1;
        }
        (0, 0) => {
            s.names[(a / 2) as usize] = b + 2;
            s.names[(b / 2) as usize] = a + 2;
        }
        (0, 1) => s.names[(a / 2) as usize] = b + 2,
        (1, 0) => s.names[(b / 2) as usize] = a + 2,
        _ => put(s, a, b),
    }
}

fn fire(t: &Table, s: &mut State, rule: &Rule, a: usize, b: usize) {
    let mut env = [0u16; 40];
    let mut fresh = [0u16; 32];
    env[..4].copy_from_slice(&s.arguments[ARITY * a..ARITY * a + 4]);
    env[4..8].copy_from_slice(&s.arguments[ARITY * b..ARITY * b + 4]);
    for c in [a, b] {
        s.symbols[c] = 0;
        s.arguments[ARITY * c..ARITY * c + 4].fill(0);
        s.low_cell = s.low_cell.min(c);
    }
    for i in 0..rule.nodes.len() {
        while s.symbols[s.low_cell] != 0 {
            s.low_cell += 1;
        }
        fresh[i] = s.low_cell as u16;
        s.symbols[s.low_cell] = rule.nodes[i].0;
        s.low_cell += 1;
    }
    for i in 0..rule.names {
        while s.names[s.low_name] != 0 {
            s.low_name += 1;
        }
        env[8 + i] = 2 * s.low_name as u16;
        s.names[s.low_name] = 1;
        s.low_name += 1;
    }
    s.cells_used = s.cells_used + rule.nodes.len() - 2;
    s.names_used += rule.names;
    let code = |w: u16| if w % 2 == 0 { env[(w / 2) as usize] } else { 2 * fresh[(w / 2) as usize] + 1 };
    for (i, (symbol, args)) in rule.nodes.iter().enumerate() {
        let c = fresh[i] as usize;
        for k in 0..t.arities[(*symbol - 1) as usize] {
            s.arguments[ARITY * c + k] = code(args[k]);
        }
    }
    for e in rule.sides.chunks(2).rev() {
        put(s, code(e[0]), code(e[1]));
    }
}

// Runs from the head: the interactions and the steps made.
fn run(t: &Table, s: &mut State, budget: u32) -> (u32, u64) {
    let (mut made, mut steps) = (0, 0);
    while s.waits > 0 {
        let (l, r) = (s.waiting[2 * s.waits - 2], s.waiting[2 * s.waits - 1]);
        let mut found = Pair::Nothing;
        if l % 2 == 1 && r % 2 == 1 {
            let (p, q) = (s.symbols[(l / 2) as usize] - 1, s.symbols[(r / 2) as usize] - 1);
            found = t.pairs[64 * p as usize + q as usize];
        }
        if let Pair::Straight(n) | Pair::Turned(n) = found {
            let rule = &t.rules[n as usize];
            if made == budget
                || s.cells_used - 2 + rule.nodes.len() > CELLS
                || s.names_used + rule.names > NAMES
                || s.waits - 1 + rule.sides.len() / 2 > WAITING
            {
                return (made, steps);
            }
        }
        s.waits -= 1;
        s.waiting[2 * s.waits] = 0;
        s.waiting[2 * s.waits + 1] = 0;
        steps += 1;
        match (l % 2, r % 2, found) {
            (1, 1, Pair::Nothing) => s.stuck.extend([l, r]),
            (1, 1, Pair::Straight(n)) => {
                fire(t, s, &t.rules[n as usize], (l / 2) as usize, (r / 2) as usize);
                made += 1;
            }
            (1, 1, Pair::Turned(n)) => {
                fire(t, s, &t.rules[n as usize], (r / 2) as usize, (l / 2) as usize);
                made += 1;
            }
            (1, 0, _) => wire(s, r, l),
            _ => wire(s, l, r),
        }
    }
    (made, steps)
}

fn main() {
    let a: Vec<String> = env::args().collect();
    let budget: u32 = a[1].parse().unwrap();
    let times: u32 = a[2].parse().unwrap();
    let (t, s) = load(&fs::read_to_string("rules.txt").unwrap(), &fs::read_to_string("net.txt").unwrap());
    let (mut made, mut steps) = (0u64, 0);
    for _ in 0..times {
        let mut state = s.clone();
        let r = run(&t, &mut state, budget);
        made += r.0 as u64;
        steps += r.1;
    }
    println!("{made} {steps}");
}
