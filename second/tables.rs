//! Compares the ordering tables of modes 0 to 4 wherever they stand: the printed ones of both documents, number for number and each of 0
//! to K-1 exactly once; and with these the specification's, the proved code's and the benchmark's. Run from the repository's root.
mod printed;

/// K of modes 0 to 4.
const BITS: [usize; 5] = [132, 177, 253, 285, 317];

/// Numbers that the papers name: mode, j and table(j). Document 01 counts s from 1, so its d(3) = s(102) is 101 here.
const NAMED: [(usize, usize, usize); 4] = [(0, 20, 60), (3, 3, 101), (3, 284, 277), (4, 316, 309)];

fn text(path: &str) -> String {
    std::fs::read_to_string(path).unwrap_or_else(|error| {
        println!("{path}: {error}");
        std::process::exit(1)
    })
}

/// What stands behind the first and before the second text; nothing where they are missing.
fn between<'a>(text: &'a str, before: &str, after: &str) -> &'a str {
    let rest = text.split_once(before).map_or("", |parts| parts.1);
    rest.split_once(after).map_or("", |parts| parts.0)
}

/// Numbers with anything but digits between them.
fn numbers(text: &str) -> Vec<usize> {
    text.split(|c: char| !c.is_ascii_digit()).filter(|n| !n.is_empty()).map(|n| n.parse().expect("a number")).collect()
}

/// A table of the specification: `table0 = 0 ∷ 5 ∷ .. ∷ []`.
fn of_specification(text: &str, mode: usize) -> Vec<usize> {
    numbers(between(text, &format!("\ntable{mode} ="), "[]"))
}

/// A table of Rattle or Rust: `TABLE_0: [u16; 132] = [0, 5, ..]`.
fn of_array(text: &str, mode: usize) -> Vec<usize> {
    let declared = format!(" TABLE_{mode}: [u16; {}]", BITS[mode]);
    let rest = text.split_once(&declared).map_or("", |parts| parts.1);
    numbers(between(rest, "[", "]"))
}

/// Whether each number below K stands in a table exactly once.
fn each_once(table: &[usize], bits: usize) -> bool {
    let mut sorted = table.to_vec();
    sorted.sort();
    sorted.into_iter().eq(0..bits)
}

/// Prints the first difference from the printed table, if there is one.
fn same(what: &str, mode: usize, table: &[usize], printed: &[usize]) -> bool {
    let differs = (0..table.len().max(printed.len())).find(|j| table.get(*j) != printed.get(*j));
    if let Some(j) = differs {
        println!("table {mode} of {what}, {} numbers: {:?} and not {:?} at {j}", table.len(), table.get(j), printed.get(j));
    }
    differs.is_none()
}

fn main() {
    let first = printed::tables(&text("tests/tables/ts-26.201-b.txt"));
    let second = printed::tables(&text("tests/tables/g.722.2-e.txt"));
    let specification = text("crates/definitions/specs/Tables.antt");
    let code = text("crates/order_tables/src/tables.rt");
    let baseline = text("benches/order.rs");
    let mut right = NAMED.iter().all(|(mode, j, number)| first[*mode].get(*j) == Some(number));
    for (mode, table) in first.iter().enumerate() {
        let once = each_once(table, BITS[mode]);
        let all = same("G.722.2 Annex E", mode, &second[mode], table)
            & same("the specification", mode, &of_specification(&specification, mode), table)
            & same("order_tables", mode, &of_array(&code, mode), table)
            & same("the benchmark", mode, &of_array(&baseline, mode), table);
        let holds = if once { "each number once" } else { "not each number once" };
        println!("table {mode}: {} numbers, {holds}, {} everywhere", table.len(), if all { "the same" } else { "not the same" });
        right &= once & all;
    }
    if !right {
        println!("an ordering table is wrong");
        std::process::exit(1);
    }
}
