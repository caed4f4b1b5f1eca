//! Compares the reader of a sheet's text with the second program.
use crate::frame;
use crate::library::two_calls;
use crate::random::Random;
use crate::random_sheets::some_text;
use crate::sheet;
use crate::tally::{agree, Tally};

/// The sheets of modes 5 to 8, made from tables B.6 to B.9 of TS 26.201, to which tables E.15 to E.18 of G.722.2 are equal. They serve in
/// tests alone.
const SHEETS: [&[u8]; 4] = [
    include_bytes!("../tests/sheets/mode_5.txt"),
    include_bytes!("../tests/sheets/mode_6.txt"),
    include_bytes!("../tests/sheets/mode_7.txt"),
    include_bytes!("../tests/sheets/mode_8.txt"),
];

/// Numbers behind the lent ones, which must stay too.
const BEHIND: usize = 16;

/// What the numbers are before and after a call that writes these.
fn lent(before: &[u16], numbers: &[u16]) -> Vec<u16> {
    let mut after = before.to_vec();
    after[..numbers.len()].copy_from_slice(numbers);
    after
}

/// What the second program gives, where so many of these numbers are lent; None where a library differs.
fn read(tally: &mut Tally, text: &[u8], before: &[u16], room: usize) -> Option<Result<(u64, Vec<u16>), u64>> {
    let kept = text.to_vec();
    let done = sheet::read(&kept, room);
    let refusal = done.as_ref().err().copied().unwrap_or(0);
    let (mode, numbers) = done.clone().unwrap_or_default();
    let want = [refusal, 0, 0, mode, numbers.len() as u64];
    let all = two_calls().all(|(level, calls)| {
        let mut after = before.to_vec();
        let got = unsafe { (calls.sheet_read)(text.as_ptr(), text.len(), after.as_mut_ptr(), room) }.fields();
        let same = got == want && text == kept && after == lent(before, &numbers);
        let shown = || format!("{:?} into {room} numbers: {got:?} and not {want:?}", String::from_utf8_lossy(&kept));
        tally.compared("sheet_read", level, refusal, same, shown)
    });
    all.then_some(done)
}

/// One text by chance, into numbers by chance; true where the libraries and the second program agree, and a text that is read is the one
/// that its numbers print.
pub fn compare(g: &mut Random, tally: &mut Tally) -> bool {
    let (text, k) = some_text(g);
    let room = g.room("sheet_read numbers", k);
    let before: Vec<u16> = (0..room + BEHIND).map(|_| g.next() as u16).collect();
    match read(tally, &text, &before, room) {
        None => false,
        Some(Err(_)) => true,
        Some(Ok((mode, numbers))) => agree(printed(mode, &numbers) == text, || format!("mode {mode}: {numbers:?} print another text")),
    }
}

/// The text of a sheet.
fn printed(mode: u64, numbers: &[u16]) -> Vec<u8> {
    let lines: Vec<String> = numbers.iter().enumerate().map(|(j, n)| format!("d{j}={n}\n")).collect();
    format!("mode={mode}\nbits={}\n{}", numbers.len(), lines.concat()).into_bytes()
}

/// The numbers of a mode's sheet, none in modes 0 to 4; None where a library or the second program refuses its text or differs.
pub fn sheet_of(tally: &mut Tally, mode: u64) -> Option<Vec<u16>> {
    let Some(text) = mode.checked_sub(5).map(|i| SHEETS[i as usize]) else { return Some(Vec::new()) };
    let k = frame::core_bits(mode);
    let done = read(tally, text, &vec![0xA7A7; k + BEHIND], k)?;
    let right = matches!(&done, Ok((of, _)) if *of == mode);
    agree(right, || format!("the sheet of mode {mode}: {done:?}")).then(|| done.unwrap_or_default().1)
}

/// The sheets of modes 5 to 8, and the first into every room, and with something wrong at every octet; true where all agree.
pub fn compare_fixed(tally: &mut Tally) -> bool {
    let text = SHEETS[0];
    let before = [0xA7A7; 400];
    (5..=8).all(|mode| sheet_of(tally, mode).is_some())
        && (0..=before.len() - BEHIND).all(|room| read(tally, text, &before, room).is_some())
        && (0..text.len()).all(|at| damaged(text, at).iter().all(|text| read(tally, text, &before, 365).is_some()))
}

/// A text cut before an octet, without it, with another in its place and with one before it.
fn damaged(text: &[u8], at: usize) -> Vec<Vec<u8>> {
    let (front, behind) = text.split_at(at);
    let mut texts = vec![front.to_vec(), [front, &behind[1..]].concat()];
    for other in [b"0", b"1", b"9", b"=", b"\n", b"\0"] {
        texts.push([front, other, &behind[1..]].concat());
        texts.push([front, other, behind].concat());
    }
    texts
}
