//! The most stack that each exported call takes, out of the compiled code:
//! `frames MODULE.s MODULE.su`, what the kit's clang makes of the archive's
//! module, and the frames it says that it laid out. Prints for each call its
//! bytes, the caller's return address with them, and the deepest path with
//! the bytes of each function on it.
//!
//! Fails where a function has a frame of no fixed size, where the two files do
//! not agree, and where a call goes round further than the walks' levels.

use std::collections::{BTreeMap, BTreeSet};

/// A call leaves this on the stack for the way back.
const ADDRESS: usize = 8;

/// The walks that call themselves or each other, and how often each can stand
/// on one path: their measures fall from the set's items to its series, and
/// from there to a pack's items, 2, 1, 0 (`depth` in `tally`, `check_records` and
/// the writers).
const LEVELS: [(&str, usize); 9] = [
    ("check_items::item_rest", 2),
    ("check_items::pack_walk", 1),
    ("check_records::item_records", 2),
    ("check_records::target_records", 1),
    ("write_sheet::item_sheet", 2),
    ("write_sheet::rest_sheet", 2),
    ("write_sheet::pack_sheet", 1),
    ("write_normal::item_normal", 2),
    ("write_normal::pack_normal", 1),
];

/// What the C library gives. Its own frame is not the archive's.
const OUTSIDE: [&str; 1] = ["memset"];

struct Call {
    to: String,
    /// The caller's bytes when it is made, those pushed for it with them.
    at: usize,
    /// It takes the caller's place, and returns for it.
    last: bool,
}

#[derive(Default)]
struct Function {
    /// The most bytes at any instruction of it.
    most: usize,
    calls: Vec<Call>,
}

fn main() {
    let words: Vec<String> = std::env::args().skip(1).collect();
    let [code, frames] = &words[..] else { fail("frames MODULE.s MODULE.su") };
    let text = |path: &String| std::fs::read_to_string(path).unwrap_or_else(|_| fail(&format!("no file {path}")));
    let (code, frames) = (text(code), text(frames));
    let tables = tables(&code);
    let functions: BTreeMap<String, Function> =
        bodies(&code).into_iter().map(|(name, body)| (name.clone(), function(&name, &body, &tables))).collect();
    agree(&functions, &laid_out(&frames));
    for name in exported(&code) {
        let mut path = Vec::new();
        let (bytes, deepest) = deepest(&functions, &name, &mut path);
        let steps: Vec<String> = deepest.iter().map(|(name, bytes)| format!("{name} {bytes}")).collect();
        println!("{name}\t{}\t{}", bytes + ADDRESS, steps.join(" > "));
    }
}

fn fail(why: &str) -> ! {
    eprintln!("frames: {why}");
    std::process::exit(1)
}

/// Each function's frame as the compiler says it: `module:name<TAB>bytes<TAB>static`.
fn laid_out(text: &str) -> BTreeMap<String, usize> {
    text.lines()
        .map(|line| {
            let fields: Vec<&str> = line.split('\t').collect();
            let [place, bytes, "static"] = fields[..] else { fail(&format!("no fixed frame: {line}")) };
            let name = place.split_once(':').map_or(place, |(_, name)| name);
            (name.to_string(), bytes.parse().unwrap_or_else(|_| fail(&format!("no size: {line}"))))
        })
        .collect()
}

/// The same functions in both, and no frame that the code does not have. What
/// is pushed for a call comes on top: the compiler does not count it.
fn agree(functions: &BTreeMap<String, Function>, frames: &BTreeMap<String, usize>) {
    if !functions.keys().eq(frames.keys()) || functions.is_empty() {
        fail("the code and the frames name other functions");
    }
    for (name, function) in functions {
        let pushed = function.most as isize - frames[name] as isize;
        if !(0..=128).contains(&pushed) {
            fail(&format!("{name}: {} bytes in the code, a frame of {}", function.most, frames[name]));
        }
    }
}

fn exported(code: &str) -> Vec<String> {
    let names = code.lines().filter_map(|line| line.trim().strip_prefix(".globl"));
    names.map(|rest| bare(rest.split('#').next().unwrap_or(rest))).collect()
}

/// A symbol without its quotes and `@PLT`.
fn bare(symbol: &str) -> String {
    symbol.trim().trim_end_matches("@PLT").trim_matches('"').to_string()
}

/// The lines of each function, from its label to its end.
fn bodies(code: &str) -> Vec<(String, Vec<&str>)> {
    let mut all = Vec::new();
    let mut open: Option<(String, Vec<&str>)> = None;
    let kinds: BTreeSet<String> = code
        .lines()
        .filter_map(|line| line.trim().strip_prefix(".type")?.split_once(",@function"))
        .map(|(name, _)| bare(name))
        .collect();
    for line in code.lines() {
        let label = line.split('#').next().unwrap_or(line).trim_end();
        if let Some(name) = label.strip_suffix(':').map(bare).filter(|name| kinds.contains(name)) {
            open = Some((name, Vec::new()));
        } else if line.trim().starts_with(".Lfunc_end") {
            all.extend(open.take());
        } else if let Some((_, body)) = &mut open {
            body.push(line);
        }
    }
    all
}

/// The labels of each table of jumps: a match on several values goes by one.
type Tables<'a> = BTreeMap<&'a str, Vec<&'a str>>;

fn tables(code: &str) -> Tables<'_> {
    let mut all = Tables::new();
    let mut open = "";
    for line in code.lines().map(instruction) {
        if let Some(table) = line.strip_suffix(':') {
            open = table;
        } else if let Some((label, of)) = line.strip_prefix(".long").and_then(|rest| rest.trim().split_once('-')) {
            if of == open {
                all.entry(open).or_default().push(label);
            }
        }
    }
    all
}

/// Where a jump by a register may lead, if the last two instructions that name
/// the register, no label after them, look up a place in a table and add where
/// that begins: the labels of the table that the instruction before loads. A
/// loop may have loaded it long before: then those of all that the function
/// loads anywhere.
fn tabled<'a>(name: &str, body: &[&str], at: usize, register: &str, tables: &'a Tables) -> Vec<&'a str> {
    let short = register.strip_prefix("%r").filter(|rest| rest.ends_with(char::is_alphabetic)).unwrap_or(&register[1..]);
    let block = body[..at].iter().rev().map(|line| instruction(line)).take_while(|line| !line.ends_with(':'));
    let steps: Vec<String> = block.skip_while(|line| !line.contains(short)).take(3).map(|line| line.replace('\t', " ")).collect();
    let loaded = |line: &str| Some(tables.get(line.replace('\t', " ").strip_prefix("leaq ")?.split_once("(%rip), ")?.0)?.as_slice());
    let labels = || {
        let [added, looked, before @ ..] = &steps[..] else { return None };
        let (base, place) = looked.strip_prefix("movslq (")?.split_once(",%")?;
        if !place.ends_with(&format!(",4), {register}")) || *added != format!("addq {base}, {register}") {
            return None;
        }
        let own = before.first().filter(|line| line.ends_with(&format!("(%rip), {base}"))).and_then(|line| loaded(line));
        Some(own.map_or_else(|| body.iter().filter_map(|line| loaded(instruction(line))).flatten().copied().collect(), <[&str]>::to_vec))
    };
    labels()
        .filter(|all: &Vec<&str>| !all.is_empty())
        .unwrap_or_else(|| fail(&format!("{name}: a jump by {register}, of which the code does not say where it leads")))
}

fn instruction(line: &str) -> &str {
    line.split('#').next().unwrap_or("").trim()
}

/// Goes over a function's instructions from its start, each way once, with the
/// bytes that it has on the stack.
fn function(name: &str, body: &[&str], tables: &Tables) -> Function {
    let labels: BTreeMap<&str, usize> =
        body.iter().enumerate().filter_map(|(at, line)| Some((instruction(line).strip_suffix(':')?, at))).collect();
    let target = |label: &str| *labels.get(label).unwrap_or_else(|| fail(&format!("{name}: no label {label}")));
    let mut all = Function::default();
    let mut seen: BTreeMap<usize, usize> = BTreeMap::new();
    let mut todo = vec![(0, 0)];
    while let Some((mut at, mut bytes)) = todo.pop() {
        while at < body.len() {
            match seen.insert(at, bytes) {
                Some(before) if before == bytes => break,
                Some(before) => fail(&format!("{name}: {before} and {bytes} bytes at one instruction")),
                None => {}
            }
            let line = instruction(body[at]);
            let (word, rest) = line.split_once(char::is_whitespace).unwrap_or((line, ""));
            let rest = rest.trim();
            at += 1;
            match word {
                "pushq" => bytes += 8,
                "popq" => bytes -= 8,
                "subq" | "addq" if rest.ends_with(", %rsp") => {
                    let by: usize = number(rest).unwrap_or_else(|| fail(&format!("{name}: no fixed frame: {line}")));
                    bytes = if word == "subq" { bytes + by } else { bytes - by };
                }
                "callq" => all.calls.push(Call { to: named(name, rest), at: bytes, last: false }),
                "retq" => {
                    if bytes != 0 {
                        fail(&format!("{name}: returns with {bytes} bytes"));
                    }
                    break;
                }
                "ud2" => break,
                "jmp" | "jmpq" if rest.starts_with(".L") => at = target(rest),
                "jmpq" if rest.starts_with("*%") => {
                    todo.extend(tabled(name, body, at - 1, &rest[1..], tables).into_iter().map(|label| (target(label), bytes)));
                    break;
                }
                "jmp" | "jmpq" => {
                    all.calls.push(Call { to: named(name, rest), at: bytes, last: true });
                    break;
                }
                _ if word.starts_with('j') && rest.starts_with(".L") => todo.push((target(rest), bytes)),
                _ if word.starts_with('j') => all.calls.push(Call { to: named(name, rest), at: bytes, last: true }),
                _ if rest.ends_with("%rsp") => fail(&format!("{name}: no fixed frame: {line}")),
                _ => {}
            }
            all.most = all.most.max(bytes);
        }
    }
    all
}

fn number(operands: &str) -> Option<usize> {
    operands.strip_prefix('$')?.split(',').next()?.parse().ok()
}

fn named(of: &str, symbol: &str) -> String {
    if symbol.starts_with('*') {
        fail(&format!("{of}: a call by {symbol}, of which the code does not say whom it reaches"));
    }
    bare(symbol)
}

/// The bytes below a function's return address on the deepest path from it,
/// and that path.
fn deepest(functions: &BTreeMap<String, Function>, name: &str, path: &mut Vec<String>) -> (usize, Vec<(String, usize)>) {
    let function = &functions[name];
    let mut best = (function.most, vec![(name.to_string(), function.most)]);
    path.push(name.to_string());
    for call in &function.calls {
        let link = if call.last { 0 } else { ADDRESS };
        let (below, steps) = if OUTSIDE.contains(&call.to.as_str()) {
            (0, vec![(call.to.clone(), 0)])
        } else if !functions.contains_key(&call.to) {
            fail(&format!("{name}: a call of {}, which the archive does not have", call.to))
        } else if may_stand(&call.to, path) {
            deepest(functions, &call.to, path)
        } else {
            continue;
        };
        if best.0 < call.at + link + below {
            let own = (name.to_string(), call.at + link);
            best = (own.1 + below, [vec![own], steps].concat());
        }
    }
    path.pop();
    best
}

/// Whether a function can stand once more on this path: but for the walks none
/// stands on it twice.
fn may_stand(name: &str, path: &[String]) -> bool {
    let stands = path.iter().filter(|of| *of == name).count();
    match LEVELS.iter().find(|(walk, _)| *walk == name) {
        Some((_, times)) => stands < *times,
        None if stands == 0 => true,
        None => fail(&format!("{name} calls itself: {}", path.join(" > "))),
    }
}
