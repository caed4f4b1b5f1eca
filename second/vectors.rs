//! Prints document 01's bench cases that are not marked P, calls of document 02's consoles, sheets and merges, and the public vectors: the frames of
//! TS 26.201's tables 5, 6, A.1a, A.2 and A.3 with every core bit's place, the sub-flows of TS 26.202's table 6-2, and the ordering tables B.1 to
//! B.5. What the papers print is taken from their print; where the second program has it otherwise, this program fails.
mod consoles;
mod frame;
// no vector releases a set, only validates a recording, or orders a row
#[allow(dead_code)]
mod link;
mod merge;
#[allow(dead_code)]
mod order;
mod printed;
mod printed_frames;
mod printed_subflows;
#[allow(dead_code)]
mod recording;
mod sheet;

use consoles::Consoles;
use frame::{Frame, ALL_FORMATS};
use order::Order;
use printed_frames::Table;
use recording::HEADER;

const FRAMES: &str = include_str!("../tests/tables/ts-26.201-frames.txt");
const ORDER: &str = include_str!("../tests/tables/ts-26.201-b.txt");

fn check(right: bool, what: &str) {
    if !right {
        eprintln!("the second program has it otherwise than the papers: {what}");
        std::process::exit(1);
    }
}

/// Each octet with a space before it.
fn hex(octets: &[u8]) -> String {
    octets.iter().map(|octet| format!(" {octet:02x}")).collect()
}

fn refusal<T>(done: Result<T, u64>) -> u64 {
    done.err().unwrap_or(0)
}

fn read(format: u64, octets: &[u8]) -> u64 {
    refusal(frame::read(ALL_FORMATS, format, octets, usize::MAX))
}

fn bench() {
    for n in [17, 18, 19] {
        let mut octets = vec![0; n];
        octets[0] = 0x08;
        println!("bench IF2 type 0 octets {n} refusal {}", read(2, &octets));
    }
    for request in [8, 9] {
        let mut octets = [0; 20];
        octets[..2].copy_from_slice(&[0x08, request]);
        println!("bench IF1 type 0 request {request} refusal {}", read(1, &octets));
    }
    let done = recording::converted(ALL_FORMATS, 2, 1, 9, &[]);
    println!("bench convert request 9 refusal {}", recording::into_buffer(&done, 0).map_or_else(|refused| refused.0, |_| 0));
    for rfci in [63, 64] {
        println!("bench assign RFCI {rfci} refusal {}", refusal(link::assign(&link::fresh(), &[rfci, 15, 0, 0, 0])));
    }
    let link = link::assign(&link::fresh(), &[63, 15, 0, 0, 0]).expect("a right set");
    for rfci in [63, 64] {
        println!("bench up RFCI {rfci} refusal {}", refusal(link::up(&link, 0, rfci, &Default::default(), usize::MAX)));
    }
}

fn print_state(consoles: Consoles) -> Consoles {
    let waiting = consoles.waiting.map(|count| format!(" {count}")).concat();
    println!(" waiting{waiting} next {}", consoles.next);
    consoles
}

fn print_add(before: Consoles, console: u64) -> Consoles {
    let done = consoles::add(&before, console);
    print!("consoles add {console} refusal {}", refusal(done));
    print_state(done.unwrap_or(before))
}

fn print_slot(before: Consoles) -> Consoles {
    let done = consoles::slot(&before);
    print!("consoles slot served {} console {}", done.is_some() as u64, done.map_or(0, |(console, _)| console));
    print_state(done.map_or(before, |(_, after)| after))
}

/// From console 0 on, around the ring, and a slot with nobody waiting; numbers out of their range; the 100th and the 101st frame.
fn console_calls() {
    let mut state = print_slot(consoles::fresh());
    state = [7, 0, 3, 0].into_iter().fold(state, print_add);
    state = (0..5).fold(state, |state, _| print_slot(state));
    state = [8, 257].into_iter().fold(state, print_add);
    state = (1..100).fold(state, |state, _| consoles::add(&state, 1).expect("room for a frame"));
    state = [1, 1].into_iter().fold(state, print_add);
    state = (0..2).fold(state, |state, _| print_slot(state));
    print_add(state, 1);
}

/// A frame of good quality whose core is 0.
fn zero_frame(ftype: u64, indication: u64, request: u64) -> Frame {
    Frame { ftype, quality: 1, indication, request, core: vec![false; frame::core_bits(ftype)] }
}

/// Prints a frame, checked against its octets as the paper has them.
fn print_frame(name: &str, format: u64, x: &Frame, printed: &[u8]) {
    let octets = frame::layout(format, x);
    check(octets == printed, &format!("{name}: {} and not {}", hex(&octets), hex(printed)));
    println!("{name} frame{}", hex(&octets));
}

/// Prints where each core bit stands in a frame whose core is 0 but for that bit, and in IF1 its CRC.
fn print_core(name: &str, format: u64, x: &mut Frame, table: &Table) {
    let zero = frame::layout(format, x);
    let places = table.core(if format == 1 { 4 } else { 1 }, x.core.len()).unwrap_or_default();
    check(places.len() == x.core.len(), &format!("{name}: the printed bits do not follow one another"));
    for (j, (octet, bit)) in places.into_iter().enumerate() {
        x.core[j] = true;
        let octets = frame::layout(format, x);
        x.core[j] = false;
        let mut expected = zero.clone();
        expected[octet - 1] |= 1 << (bit - 1);
        let crc = if format == 1 { format!(" CRC {:02x}", octets[2]) } else { String::new() };
        if format == 1 {
            expected[2] = octets[2];
        }
        check(octets == expected, &format!("{name}: d({j})"));
        println!("{name} d({j}) octet {octet} bit {bit}{crc}");
    }
}

/// An IF1 frame as printed: its first octet, its two modes, the CRC of the second program at the printed place, and the core.
fn printed_if1(name: &str, table: &Table, first: u8, modes: u64, x: &Frame) -> Vec<u8> {
    let mut octets = frame::layout(1, x);
    let crc = table.cells(3, "CRC(").all(|cell| cell.text == format!("CRC({})", cell.bit - 1)) && table.cells(3, "CRC(").count() == 8;
    check(crc, &format!("{name}: CRC"));
    octets[0] = first;
    octets[1] = modes as u8;
    octets[3..].fill(0);
    octets
}

fn table_5() {
    let table = Table::new(FRAMES, "Table 5:");
    // Printed are type 3 and indication 3 over the layout of 12.65 kbit/s, which is type 2.
    let request = table.field(2, "Mode Request").unwrap_or(0);
    let printed_modes = table.field(2, "Mode Indication").unwrap_or(0) << 4 | request;
    let (first, modes) = (table.digits(1) & 0x0F | 2 << 4, 2 << 4 | request);
    check(table.digits(1) >> 4 == 3 && printed_modes == 0x31, "table 5: type and modes as printed");
    let mut x = zero_frame(2, 2, request);
    let octets = printed_if1("table 5", &table, first, modes, &x);
    print_frame("table 5", 1, &x, &octets);
    let as_printed = printed_if1("table 5", &table, table.digits(1), printed_modes, &x);
    println!("table 5 printed refusal {}", read(1, &as_printed));
    print_core("table 5", 1, &mut x, &table);
}

fn table_6() {
    let table = Table::new(FRAMES, "Table 6:");
    // Printed is 1000 over a type of 9, which is 1001. The copy has the request's digits one column to the left; its number is right.
    let request = table.field(2, "Mode Request").unwrap_or(0);
    let ftype = table.field(1, "Frame Type").unwrap_or(0);
    let first = table.digits(1) & 0x0F | (ftype as u8) << 4;
    check(table.digits(1) >> 4 == 8 && ftype == 9, "table 6: type as printed");
    let mut x = zero_frame(9, 0, request);
    // SID_UPDATE: STI is 1, and then the mode follows
    let mode = table.field(8, "Mode Indication").unwrap_or(0);
    check(table.digits(8) as u64 == 0x10 | mode, "table 6: STI and mode as printed");
    x.core[32..].copy_from_slice(&frame::bits(&[table.digits(8)]));
    let mut octets = printed_if1("table 6", &table, first, request, &x);
    octets[7] = table.digits(8);
    print_frame("table 6", 1, &x, &octets);
    octets[0] = table.digits(1);
    println!("table 6 printed refusal {}", read(1, &octets));
    print_core("table 6", 1, &mut zero_frame(9, 0, request), &table);
}

/// Tables A.1a and A.2: an IF2 frame of this type, with its filling bits in the last octet.
fn table_if2(name: &str, caption: &str, ftype: u64, last: usize) {
    let table = Table::new(FRAMES, caption);
    let mut x = zero_frame(ftype, 0, 0);
    let mut octets = vec![0; last];
    octets[0] = table.cells(1, "FQI").fold(table.digits(1), |octet, fqi| octet | 1 << (fqi.bit - 1));
    print_frame(name, 2, &x, &octets);
    check(5 + x.core.len() + table.cells(last, "UB").count() == 8 * last, &format!("{name}: filling bits"));
    print_core(name, 2, &mut x, &table);
}

fn table_a3() {
    let table = Table::new(FRAMES, "Table A.3:");
    let header = &table.cells(0, "Frame Type 14").next().expect("the types' digits").text;
    for ftype in [14, 15] {
        let digits = header.split_once(&format!("Frame Type {ftype} =")).expect("a type's digits").1;
        let digits: Vec<&str> = digits.split_whitespace().take(4).collect();
        // mi(3) to mi(0) are the type's four bits here
        let bits = (0..4).filter(|i| digits[3 - i] == "1").map(|i| table.cells(1, &format!("mi({i})")).next().expect("a bit").bit);
        let first = bits.fold(0, |octet, bit| octet | 1 << (bit - 1));
        for quality in [0, 1] {
            let octet = first | quality << (table.cells(1, "FQI").next().expect("the FQI").bit - 1);
            let name = format!("table A.3 type {ftype} quality {quality}");
            print_frame(&name, 2, &Frame { quality: quality as u64, ..zero_frame(ftype, 0, 0) }, &[octet]);
        }
    }
}

fn table_6_2() {
    for (rows, e) in printed_subflows::examples().iter().zip(1..) {
        let link = link::rate(&link::fresh(), 3).expect("a mode");
        let assigned = link::assign(&link, &rows.concat());
        println!("table 6-2 example {e} assign refusal {}", refusal(assigned));
        let mut link = assigned.unwrap_or(link);
        for [rfci, _, size1, size2, _] in rows {
            let mut first = vec![0; (*size1 as usize + 7) / 8];
            first[0] = 0xa5;
            let second = frame::pack(&vec![true; *size2 as usize]);
            let octets = link::up(&link, 0, *rfci, &[first, second, Vec::new()], usize::MAX).expect("sub-flows of the set");
            println!("table 6-2 example {e} RFCI {rfci} up{}", hex(&octets));
            let down = link::down(&link, &octets, [usize::MAX; 3]).expect("a frame of the set");
            let [s1, s2, s3] = down.subflows.map(|subflow| hex(&subflow));
            let (forwarded, request) = (down.forwarded.is_some() as u64, down.forwarded.unwrap_or(0));
            let state = format!("FQC {} RFCI {} forwarded {forwarded} request {request}", down.fqc, down.rfci);
            println!("table 6-2 example {e} RFCI {rfci} down {state} sub-flow 1{s1} sub-flow 2{s2} sub-flow 3{s3}");
            link = down.link;
        }
    }
}

fn print_numbers<T: ToString>(numbers: &[T]) {
    for line in numbers.chunks(10) {
        println!("{}", line.iter().map(T::to_string).collect::<Vec<_>>().join(" "));
    }
}

fn tables_b() {
    for (table, m) in printed::tables(ORDER).iter().zip(1..) {
        println!("table B.{m}");
        print_numbers(table);
    }
}

/// Reads the text of a sheet in which d(j) has the number j + 1, and the last of them another one: what is read, or none where it is refused.
fn print_sheet(mode: u64, last: usize, room: usize) -> Vec<u16> {
    let bits = frame::core_bits(mode);
    let numbers = (1..bits).chain([last]).enumerate();
    let lines: Vec<String> = numbers.map(|(j, n)| format!("d{j}={n}\n")).collect();
    let done = sheet::read(format!("mode={mode}\nbits={bits}\n{}", lines.concat()).as_bytes(), room);
    print!("sheet mode {mode} bits {bits} last {last} room {room} refusal {}", done.as_ref().err().unwrap_or(&0));
    let (mode, numbers) = done.unwrap_or_default();
    println!(" mode {mode} numbers {}", numbers.len());
    numbers
}

/// Where a core's bits come to in the row by a sheet: d(j) = s(number + 1).
fn by_sheets(order: &Order) {
    for mode in 5..=8 {
        let sheet = print_sheet(mode, 0, 480);
        println!("table by the sheet of mode {mode}");
        let cores = (0..sheet.len()).map(|j| frame::pack(&(0..sheet.len()).map(|i| i == j).collect::<Vec<_>>()));
        let rows = cores.map(|core| order.to_row(mode, &sheet, &core, sheet.len()).expect("a right sheet"));
        let places: Vec<usize> = rows.map(|row| row.iter().position(|s| *s == 1).expect("a bit")).collect();
        check(places.iter().copied().eq((1..sheet.len()).chain([0])), &format!("the sheet of mode {mode}"));
        print_numbers(&places);
    }
}

/// Right sheets of every mode; a buffer that is one number short, a number whose low 16 bits are 0, and a mode that has no sheet; orders with
/// no sheet, and with sheets of another length and of nothing but 0.
fn sheets() {
    let order = Order::new();
    by_sheets(&order);
    print_sheet(5, 0, 364);
    print_sheet(5, 65536, 365);
    print_sheet(4, 0, 365);
    for n in [0, 364, 365] {
        println!("order mode 5 numbers {n} refusal {}", refusal(order.to_row(5, &vec![0; n], &[0; 46], 480)));
    }
}

/// In storage format: SID; SPEECH_LOST; a bad SID frame; NO_DATA; SPEECH_LOST.
const SHORTER: &[u8] = b"#!AMR-WB\n\
    \x4C\x11\x11\x11\x11\x13\
    \x70\
    \x48\x22\x22\x22\x22\x12\
    \x7C\
    \x70";

/// SID; speech of type 0; SID; a bad SID frame; NO_DATA marked bad; SID; SPEECH_LOST.
const LONGER: &[u8] = b"#!AMR-WB\n\
    \x4C\x33\x33\x33\x33\x10\
    \x04\x77\x77\x77\x77\x77\x77\x77\x77\x77\x77\x77\x77\x77\x77\x77\x77\x70\
    \x4C\x44\x44\x44\x44\x18\
    \x48\x55\x55\x55\x55\x03\
    \x78\
    \x4C\x66\x66\x66\x66\x11\
    \x70";

/// In IF1: SID, request 2; NO_DATA; a bad SID frame, request 6.
const IF1_SHORTER: &[u8] = b"\x98\x02\xA5\x00\x00\x00\x00\x13\
    \xF8\
    \x90\x06\xA5\x00\x00\x00\x00\x13";

/// SID, request 7; speech of type 0, indication 8, request 3; SID, requests 1 and 8.
const IF1_LONGER: &[u8] = b"\x98\x07\xA5\x00\x00\x00\x00\x13\
    \x08\x83\x00\x00\x00\x00\x00\x00\x00\x00\x00\x00\x00\x00\x00\x00\x00\x00\x00\x00\
    \x98\x01\xA5\x00\x00\x00\x00\x13\
    \x98\x08\xA5\x00\x00\x00\x00\x13";

/// A spare bit 1 in the second frame.
const SPARE_BIT: &[u8] = b"#!AMR-WB\n\x7C\x7D";

/// Type 10 in the second frame.
const RESERVED_TYPE: &[u8] = b"#!AMR-WB\n\x7C\x50";

fn print_merge(format: u64, first: &[u8], second: &[u8], room: usize) {
    println!("merge format {format} first{}", hex(first));
    println!("merge format {format} second{}", hex(second));
    let done = merge::merged(ALL_FORMATS, format, first, second);
    let ([refusal, frame, octet, recording, frames, _], octets) = merge::answer(&done, room);
    print!("merge format {format} room {room} refusal {refusal} recording {recording} frame {frame} octet {octet} frames {frames}");
    println!(" octets{}", hex(octets));
}

/// Either as the first; a recording with itself; IF1 with its fields; IF2 into a buffer that just fits; recordings without frames. Refused: the
/// second's frame; the first's, whatever the second's is; the second's header; a buffer that is one octet short; formats out of their range.
fn merges() {
    print_merge(3, SHORTER, LONGER, 64);
    print_merge(3, LONGER, SHORTER, 64);
    print_merge(3, SHORTER, SHORTER, 64);
    print_merge(1, IF1_SHORTER, IF1_LONGER, 64);
    print_merge(2, b"\xF8", b"\x98\0\0\0\0\x98", 6);
    print_merge(3, HEADER, LONGER, 64);
    print_merge(3, HEADER, HEADER, 64);
    print_merge(3, SHORTER, RESERVED_TYPE, 64);
    print_merge(3, SPARE_BIT, RESERVED_TYPE, 64);
    print_merge(3, SHORTER, IF1_LONGER, 64);
    print_merge(3, SHORTER, LONGER, 52);
    print_merge(4, SPARE_BIT, RESERVED_TYPE, 64);
    print_merge(259, SHORTER, LONGER, 64);
}

fn main() {
    bench();
    console_calls();
    table_5();
    table_6();
    table_if2("table A.1a", "Table A.1a:", 1, 23);
    table_if2("table A.2", "Table A.2:", 9, 6);
    table_a3();
    table_6_2();
    tables_b();
    sheets();
    merges();
}
