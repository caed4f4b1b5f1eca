//! A bound of the stack that each function of a static library takes, read off its machine code: `stack_bound ARCHIVE` prints each global
//! function's name and octets.
//!
//! Within a function the stack pointer is followed from instruction to instruction, along jumps too. A function takes the deepest octet
//! that is pushed, reserved, or named below the stack pointer (an array there is taken to begin at the lowest place that is named), and at
//! each call what the called function takes; its own return address counts. An outside function, which only memcpy and memset are, counts
//! with its return address alone. The program ends with a message where it meets what it does not follow: a call through a pointer,
//! recursion, a jump table that leads out of its function, or another change of the stack pointer.
use std::collections::{BTreeMap, HashMap};
use std::process::{exit, Command};

const WORD: i64 = 8;

struct Instruction {
    place: u64,
    operation: String,
    operands: String,
    /// What a relocation in it names: another function, or data.
    outside: Option<String>,
}

type Functions = BTreeMap<String, Vec<Instruction>>;

fn fail(what: &str) -> ! {
    println!("stack_bound: {what}");
    exit(1)
}

fn output(program: &str, args: &[&str]) -> String {
    match Command::new(program).args(args).output() {
        Ok(done) if done.status.success() => String::from_utf8_lossy(&done.stdout).into_owned(),
        _ => fail(&format!("{program} {args:?} failed")),
    }
}

fn hex(s: &str) -> Option<u64> {
    u64::from_str_radix(s.trim_start_matches("0x"), 16).ok()
}

fn signed_hex(s: &str) -> Option<i64> {
    match s.strip_prefix('-') {
        Some(rest) => Some(-(hex(rest)? as i64)),
        None => Some(hex(s)? as i64),
    }
}

// ---- reading the code

/// A relocation's symbol, without what is added to it.
fn symbol(text: &str) -> String {
    let end = text.find(|c| c == '+').unwrap_or(text.len());
    let name = &text[..end];
    name.rfind("-0x").map_or(name, |at| &name[..at]).to_string()
}

fn functions(archive: &str) -> Functions {
    let mut all = Functions::new();
    let mut name = String::new();
    for line in output("objdump", &["-dr", "--no-show-raw-insn", archive]).lines() {
        if let Some((_, rest)) = line.strip_suffix(">:").and_then(|l| l.split_once(" <")) {
            name = rest.to_string();
            all.insert(name.clone(), Vec::new());
            continue;
        }
        let Some(code) = all.get_mut(&name) else { continue };
        if let Some((_, relocated)) = line.split_once(": R_X86_64_") {
            let named = relocated.split_whitespace().nth(1).map(symbol);
            code.last_mut().unwrap_or_else(|| fail("a relocation before code")).outside = named;
            continue;
        }
        let Some((place, text)) = line.split_once(":\t") else { continue };
        let place = hex(place.trim()).unwrap_or_else(|| fail(line));
        let text = text.split(" #").next().unwrap_or("").trim();
        let (operation, operands) = text.split_once(char::is_whitespace).unwrap_or((text, ""));
        code.push(Instruction { place, operation: operation.to_string(), operands: operands.trim().to_string(), outside: None });
    }
    all
}

/// Every table of a function with code places in it leads into that function alone.
fn check_tables(archive: &str) {
    let mut function = None;
    for line in output("objdump", &["-r", archive]).lines() {
        if let Some(section) = line.strip_prefix("RELOCATION RECORDS FOR [").and_then(|l| l.strip_suffix("]:")) {
            function = section.strip_prefix(".rodata").map(|rest| rest.trim_start_matches('.').to_string());
        } else if let (Some(f), Some(to)) = (&function, line.split_whitespace().nth(2)) {
            if to != "VALUE" && symbol(to) != format!(".text.{f}") {
                fail(&format!("a table of {f} leads to {to}"));
            }
        }
    }
}

// ---- one function

/// The lowest displacement by which an instruction names memory at the stack pointer.
fn displacement(operands: &str) -> Option<i64> {
    let at = operands.find("(%rsp")?;
    let start = operands[..at].rfind(|c: char| !c.is_ascii_hexdigit() && c != 'x' && c != '-').map_or(0, |i| i + 1);
    if start == at { Some(0) } else { signed_hex(&operands[start..at]) }
}

/// How far an instruction moves the stack pointer down.
fn moved(i: &Instruction) -> i64 {
    let amount = || {
        let number = i.operands.strip_prefix('$').and_then(|s| s.strip_suffix(",%rsp")).and_then(signed_hex);
        number.unwrap_or_else(|| fail(&format!("{} {}", i.operation, i.operands)))
    };
    match &i.operation[..] {
        "push" => WORD,
        "pop" => -WORD,
        "sub" if i.operands.ends_with(",%rsp") => amount(),
        "add" if i.operands.ends_with(",%rsp") => -amount(),
        "cmp" | "test" => 0,
        "leave" | "enter" | "pushf" | "popf" => fail(&i.operation),
        _ if i.operands.ends_with(",%rsp") => fail(&format!("{} {}", i.operation, i.operands)),
        _ => 0,
    }
}

/// What a function takes by itself, and the functions that it calls, each with the octets taken at the call.
struct Frame {
    own: i64,
    calls: Vec<(String, i64)>,
}

/// The octets taken before each instruction. A place that only a jump table leads to has those of the table's jump.
fn depths(name: &str, code: &[Instruction]) -> Vec<i64> {
    let at: HashMap<u64, usize> = code.iter().enumerate().map(|(n, i)| (i.place, n)).collect();
    let mut known: Vec<Option<i64>> = vec![None; code.len()];
    let mut open = vec![(0, WORD)];
    let mut through_table = None;
    loop {
        while let Some((n, depth)) = open.pop() {
            let Some(i) = code.get(n) else { fail(&format!("{name} runs beyond its end")) };
            match known[n] {
                Some(before) if before == depth => continue,
                Some(_) => fail(&format!("{name} reaches {:x} in two ways with different stacks", i.place)),
                None => known[n] = Some(depth),
            }
            let jump = i.operation.starts_with('j');
            if jump && i.operands.starts_with('*') {
                if through_table.is_some_and(|before| before != depth) {
                    fail(&format!("{name} has jump tables with different stacks"));
                }
                through_table = Some(depth);
            } else if jump && i.outside.is_none() {
                let to = i.operands.split_whitespace().next().and_then(hex).and_then(|place| at.get(&place));
                open.push((*to.unwrap_or_else(|| fail(&format!("{name} jumps to {}", i.operands))), depth));
            }
            if i.operation != "jmp" && !i.operation.starts_with("ret") && i.operation != "ud2" {
                open.push((n + 1, depth + moved(i)));
            }
        }
        let missed = (0..code.len()).find(|n| known[*n].is_none() && !padding(&code[*n]));
        match (missed, through_table) {
            (None, _) => return known.into_iter().map(|d| d.unwrap_or(0)).collect(),
            (Some(n), Some(depth)) => open.push((n, depth)),
            (Some(n), None) => fail(&format!("nothing leads to {:x} in {name}", code[n].place)),
        }
    }
}

/// What fills the room up to an aligned place.
fn padding(i: &Instruction) -> bool {
    i.operation.starts_with("nop") || i.operation == "int3" || i.operation == "cs" || i.operation == "data16" || i.operation == "xchg"
}

fn frame(name: &str, code: &[Instruction]) -> Frame {
    let mut found = Frame { own: WORD, calls: Vec::new() };
    for (i, depth) in code.iter().zip(depths(name, code)) {
        let below = displacement(&i.operands).map_or(0, |d| -d);
        found.own = found.own.max(depth + moved(i).max(0)).max(depth + below);
        let tail = i.operation.starts_with('j') && i.outside.is_some();
        if i.operation.starts_with("call") || tail {
            let Some(callee) = &i.outside else { fail(&format!("{name} calls {}", i.operands)) };
            // a function that is not global goes by its section
            let callee = callee.strip_prefix(".text.").unwrap_or(callee).to_string();
            found.calls.push((callee, if tail { depth - WORD } else { depth }));
        }
    }
    found
}

// ---- all of them

/// What a function takes with all that it calls.
fn bound(name: &str, frames: &BTreeMap<String, Frame>, above: &mut Vec<String>) -> i64 {
    let Some(f) = frames.get(name) else {
        if !["memcpy", "memset"].contains(&name) {
            fail(&format!("{name} is called, and is not there"));
        }
        return WORD;
    };
    if above.iter().any(|a| a == name) {
        fail(&format!("{name} calls itself, by {above:?}"));
    }
    above.push(name.to_string());
    let deepest = f.calls.iter().map(|(callee, depth)| depth + bound(callee, frames, above)).max();
    above.pop();
    f.own.max(deepest.unwrap_or(0))
}

fn main() {
    let args: Vec<String> = std::env::args().skip(1).collect();
    let [archive] = &args[..] else { fail("stack_bound ARCHIVE") };
    check_tables(archive);
    let frames: BTreeMap<String, Frame> = functions(archive).iter().map(|(name, code)| (name.clone(), frame(name, code))).collect();
    for line in output("nm", &["--defined-only", "-g", archive]).lines() {
        if let [_, "T", name] = line.split_whitespace().collect::<Vec<_>>()[..] {
            println!("{name} {}", bound(name, &frames, &mut Vec::new()));
        }
    }
}
