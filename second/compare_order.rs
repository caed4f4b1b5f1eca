//! Compares the codec's bit order with the second program.
use crate::compare_recordings::shown;
use crate::compare_sheets;
use crate::frame;
use crate::library::{two_calls, Answer, TwoCalls};
use crate::order::Order;
use crate::random::{written, Random};
use crate::random_frames::{change_length, some_core};
use crate::random_sheets::some_sheet;
use crate::tally::{agree, Tally};

/// What a real encoder made, 117 frames of each: the mode, the codec rows, and the packed cores of the same frames.
const ENCODER: [(u64, &[u8], &[u8]); 4] = [
    (0, include_bytes!("../tests/order/m0.row"), include_bytes!("../tests/order/m0.core")),
    (3, include_bytes!("../tests/order/m3.row"), include_bytes!("../tests/order/m3.core")),
    (5, include_bytes!("../tests/order/m5.row"), include_bytes!("../tests/order/m5.core")),
    (8, include_bytes!("../tests/order/m8.row"), include_bytes!("../tests/order/m8.core")),
];
const ENCODER_FRAMES: usize = 117;

/// A mode whose row or core suits the call: mostly its own, and one that agrees in the low octet where it is out of range.
fn mode_like(g: &mut Random, mode: u64) -> u64 {
    if mode & 0xFF > 8 || g.one_in(30) { g.below(9) } else { mode & 0xFF }
}

/// A codec row of a mode, or one with another length or with a value above 1.
fn some_row(g: &mut Random, mode: u64) -> Vec<u8> {
    let mut row = g.octets(frame::core_bits(mode));
    row.iter_mut().for_each(|s| *s &= 1);
    match g.below(16) {
        0..=1 => change_length(g, &mut row),
        2..=3 => {
            let any = g.index(row.len());
            let at = g.one_of(&[0, row.len() - 1, any]);
            row[at] = g.one_of(&[2, 3, 128, 254, 255]);
        }
        _ => {}
    }
    row
}

/// One of the two calls, in the libraries and in the second program: mode, sheet, row or core, and the buffer.
struct Direction {
    name: &'static str,
    library: fn(&TwoCalls) -> unsafe extern "C" fn(u64, *const u16, usize, *const u8, usize, *mut u8, usize) -> Answer,
    second: fn(&Order, u64, &[u16], &[u8], usize) -> Result<Vec<u8>, u64>,
}

const TO_CORE: Direction = Direction { name: "order_to_core", library: |calls| calls.order_to_core, second: Order::to_core };
const TO_ROW: Direction = Direction { name: "order_to_row", library: |calls| calls.order_to_row, second: Order::to_row };

impl Direction {
    /// What the second program gives; None where a library differs.
    fn compare(&self, tally: &mut Tally, order: &Order, mode: u64, sheet: &[u16], octets: &[u8], room: usize) -> Option<Vec<u8>> {
        let kept = (sheet.to_vec(), octets.to_vec());
        let done = (self.second)(order, mode, sheet, octets, room);
        let refusal = done.as_ref().err().copied().unwrap_or(0);
        let done = done.unwrap_or_default();
        let want = [refusal, 0, 0, 0, done.len() as u64];
        let all = two_calls().all(|(level, calls)| {
            let mut out = written(room, &[]);
            let call = (self.library)(calls);
            let got = unsafe { call(mode, sheet.as_ptr(), sheet.len(), octets.as_ptr(), octets.len(), out.as_mut_ptr(), room) }.fields();
            let same = got == want && (sheet, octets) == (&kept.0, &kept.1) && out == written(room, &done);
            let shown = || format!("mode {mode}, sheet {:?}, {} into {room} octets: {got:?} and not {want:?}", kept.0, shown(&kept.1));
            tally.compared(self.name, level, refusal, same, shown)
        });
        all.then_some(done)
    }
}

/// One row or core by chance; true where the libraries and the second program agree.
pub fn compare(g: &mut Random, tally: &mut Tally, order: &Order) -> bool {
    if g.one_in(2) {
        let mode = g.number("order_to_core mode", 8);
        let like = mode_like(g, mode);
        let sheet = some_sheet(g, like);
        let row = some_row(g, like);
        let room = g.room("order_to_core core", (frame::core_bits(like) + 7) / 8);
        TO_CORE.compare(tally, order, mode, &sheet, &row, room).is_some_and(|core| undone(tally, order, mode, &sheet, &row, &core))
    } else {
        let mode = g.number("order_to_row mode", 8);
        let like = mode_like(g, mode);
        let sheet = some_sheet(g, like);
        let core = some_core(g, like);
        let room = g.room("order_to_row row", frame::core_bits(like));
        TO_ROW.compare(tally, order, mode, &sheet, &core, room).is_some()
    }
}

/// Whether the row comes back from its core, which is empty where the row was refused.
fn undone(tally: &mut Tally, order: &Order, mode: u64, sheet: &[u16], row: &[u8], core: &[u8]) -> bool {
    if core.is_empty() {
        return true;
    }
    let back = TO_ROW.compare(tally, order, mode, sheet, core, row.len());
    agree(back.as_deref() == Some(row), || format!("mode {mode}, sheet {sheet:?}: {} does not come back", shown(row)))
}

/// The real encoder's frames, each from its row to its core and back, in modes 5 to 8 by the sheet that is read from its text.
pub fn compare_encoder(tally: &mut Tally, order: &Order) -> bool {
    ENCODER.into_iter().all(|(mode, rows, cores)| {
        let bits = frame::core_bits(mode);
        let octets = (bits + 7) / 8;
        if rows.len() != ENCODER_FRAMES * bits || cores.len() != ENCODER_FRAMES * octets {
            println!("mode {mode}: the encoder's files do not have {ENCODER_FRAMES} frames");
            return false;
        }
        let Some(sheet) = compare_sheets::sheet_of(tally, mode) else { return false };
        let mut frames = rows.chunks(bits).zip(cores.chunks(octets)).enumerate();
        frames.all(|(i, (row, core))| {
            let there = TO_CORE.compare(tally, order, mode, &sheet, row, core.len());
            let back = TO_ROW.compare(tally, order, mode, &sheet, core, row.len());
            let same = there.as_deref() == Some(core) && back.as_deref() == Some(row);
            agree(same, || format!("mode {mode}: the encoder's frame {i} has another order"))
        })
    })
}
