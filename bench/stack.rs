// The stack that each call takes at 4,096 by 4,096, in bytes, read from the compiled code on standard input (`objdump -dr --no-show-raw-insn`):
// what a function pushes and reserves and its return address, for the call and for all that it calls in turn. A walk calls itself once for each
// block that it opens in another, so its share is taken as often as such blocks are nested. A walk that hands a block to another leaves it only the blocks
// inside.
use std::collections::{BTreeMap, BTreeSet, HashMap};
use std::io::Read;

// An area in which a walk opens as many blocks, each in the one before, as in any of at most 16,777,216 squares: no other has more.
const DEEPEST: (u32, u32) = (4096, 4096);

fn even_half(length: u32) -> u32 {
    let half = length / 2;
    if length > 2 && half % 2 == 1 { half + 1 } else { half }
}

// The walk that cuts a block 2 wide too, where only a part of it lies in the stretch.
const OF_STRETCHES: &str = "stretches::stretch_block";

// How many blocks, each in the one before, a walk opens at most in an a by b block. What is straight it does not cut; what is 2 wide and at most 3 deep is cut
// by the walk of a stretch only.
fn nested(a: u32, b: u32, of_stretches: bool, known: &mut HashMap<(u32, u32), usize>) -> usize {
    if a == 1 || b == 1 || a == 2 && b <= 3 && !of_stretches {
        return 1;
    }
    if let Some(&n) = known.get(&(a, b)) {
        return n;
    }
    let parts = if 2 * a > 3 * b {
        let e = even_half(a);
        vec![(e, b), (a - e, b)]
    } else {
        let e = even_half(b);
        vec![(e, a / 2), (a, b - e), (e, a - a / 2)]
    };
    let n = 1 + parts.into_iter().map(|(a, b)| nested(a, b, of_stretches, known)).max().unwrap();
    known.insert((a, b), n);
    n
}

#[derive(Default)]
struct Function {
    frame: usize,
    calls: BTreeSet<String>,
}

fn number(text: &str) -> usize {
    match text.strip_prefix("0x") {
        Some(hex) => usize::from_str_radix(hex, 16).unwrap(),
        None => text.parse().unwrap(),
    }
}

// The bytes by which an instruction lowers the stack: x86-64's push and sub, Arm's sub and store with a lowered stack pointer.
fn lowers(instruction: &str) -> usize {
    let words: Vec<&str> = instruction.split_whitespace().collect();
    match words[..] {
        ["push", _] => 8,
        ["sub", operands] if operands.ends_with(",%rsp") => number(operands.trim_start_matches('$').trim_end_matches(",%rsp")),
        ["sub", "sp,", "sp,", size] => number(size.trim_start_matches('#')),
        ["sub", "sp,", "sp,", size, "lsl", "#12"] => number(size.trim_start_matches('#').trim_end_matches(',')) << 12,
        _ => instruction.split_once("[sp, #-").and_then(|(_, rest)| rest.split_once("]!")).map_or(0, |(size, _)| number(size)),
    }
}

// Every function with its frame and its calls. Where the linker has still to put in what is called, the line below names it, and the line of the call names
// the caller, or a place in it.
fn read(code: &str) -> BTreeMap<String, Function> {
    let mut functions: BTreeMap<String, Function> = BTreeMap::new();
    let mut name = String::new();
    let lines: Vec<&str> = code.lines().collect();
    for (i, &line) in lines.iter().enumerate() {
        if let Some(head) = line.strip_suffix(">:") {
            name = head.split_once('<').unwrap().1.to_string();
            functions.insert(name.clone(), Function { frame: if cfg!(target_arch = "x86_64") { 8 } else { 0 }, ..Function::default() });
            continue;
        }
        let Some((_, text)) = line.split_once(":\t").or_else(|| line.split_once(": R_")) else { continue };
        let Some(function) = functions.get_mut(&name) else { continue };
        if line.contains(": R_") {
            let target = text.split_whitespace().last().unwrap();
            let target = target.strip_prefix(".text.").unwrap_or(target);
            function.calls.insert(target.rsplit_once(['-', '+']).map_or(target, |(before, _)| before).to_string());
        } else if text.starts_with("call ") || text.starts_with("bl\t") || text.starts_with("bl ") {
            if lines.get(i + 1).is_some_and(|below| below.contains(": R_")) {
                continue;
            }
            function.calls.insert(text.split_once('<').map_or("", |(_, t)| t.trim_end_matches('>')).to_string());
        } else {
            function.frame += lowers(text);
        }
    }
    functions
}

// The bytes of a call that begins on a block inside so many others. What a walk calls begins on the block that it has opened last.
fn takes(name: &str, functions: &BTreeMap<String, Function>, depth: &dyn Fn(&str) -> usize, inside: usize) -> usize {
    let Some(function) = functions.get(name) else { return 0 };
    let others = || function.calls.iter().filter(|callee| *callee != name);
    let opens = if function.calls.contains(name) { depth(name).saturating_sub(inside).max(1) } else { 1 };
    let with_opened = |n: usize| function.frame * n + others().map(|callee| takes(callee, functions, depth, inside + n - 1)).max().unwrap_or(0);
    (1..=opens).map(with_opened).max().unwrap_or(0)
}

fn main() {
    let mut code = String::new();
    std::io::stdin().read_to_string(&mut code).unwrap();
    let functions = read(&code);
    let (w, h) = DEEPEST;
    let (plain, of_stretches) = (nested(w, h, false, &mut HashMap::new()), nested(w, h, true, &mut HashMap::new()));
    let depth = |name: &str| if name == OF_STRETCHES { of_stretches } else { plain };
    println!("### Stack\n\nFrom the compiled code, with the return addresses, at {w} by {h}.\n");
    println!("| call | bytes |\n|---|---|");
    for name in functions.keys().filter(|name| name.starts_with("uvalinda_")) {
        println!("| {name} | {} |", takes(name, &functions, &depth, 0));
    }
    println!("\nA walk opens at most {plain} blocks of {w} by {h}, each in the one before, that of a stretch {of_stretches}, and no more of any other area.");
}
