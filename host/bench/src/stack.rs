//! How much stack a scan takes on texts sixteen levels deep, and an operation on
//! the large policy.

use crate::operations;
use crate::scans::{self, Scanner};
use std::arch::asm;

/// The painted stack; no kernel comes near its end.
const ROOM: usize = 1 << 21;

pub fn print() {
    println!("| Kernel | bytes of stack at 16 levels | innermost value |");
    println!("|---|---:|---|");
    for (name, takes) in scans::ALL {
        let (bytes, inside) = INSIDES
            .iter()
            .map(|inside| (used_by_scan((name, takes), &nest(inside)), inside))
            .max()
            .expect("there are texts");
        println!("| {name} | {bytes} | `{inside}` |");
    }
    println!();
    println!("| Operation | Policy | Kernel | bytes of stack |");
    println!("|---|---|---|---:|");
    for group in operations::groups() {
        for mut kernel in group.kernels {
            let bytes = used_by(&mut || (kernel.repeat)(1));
            let (operation, texts) = (group.operation, group.texts);
            println!("| {operation} | {texts} | {} | {bytes} |", kernel.name);
        }
    }
}

/// One value of each kind, as the innermost; the call chains differ.
const INSIDES: [&str; 8] = [
    "1",
    "-1.5e+7",
    "true",
    "\"a\"",
    "\"\\ud834\\udd1e\"",
    "\"𝄞\"",
    "\"\\x\"",
    "[",
];

/// Objects and lists by turns, sixteen of them.
fn nest(inside: &str) -> Vec<u8> {
    let (open, close) = ("{\"a\":[".repeat(8), "]}".repeat(8));
    format!("{open}{inside}{close}").into_bytes()
}

fn used_by_scan((_, takes): Scanner, text: &[u8]) -> usize {
    used_by(&mut || {
        std::hint::black_box(takes(text));
    })
}

/// A byte that happens to be written as it was painted would be missed, so
/// two paints are tried; what calling alone takes is taken off.
fn used_by(work: &mut dyn FnMut()) -> usize {
    let deepest = |job: &mut Job| touched(job, 0x00).max(touched(job, 0xFF));
    let alone = deepest(&mut Job(&mut || ()));
    deepest(&mut Job(work)) - alone
}

struct Job<'a>(&'a mut dyn FnMut());

extern "C" fn work(job: &mut Job) {
    (job.0)();
}

/// The bytes from the top of a painted stack to the deepest one touched.
fn touched(job: &mut Job, paint: u8) -> usize {
    let mut room = vec![paint; ROOM];
    let end = room.as_mut_ptr_range().end;
    // Down to the next multiple of 16, as a call wants its stack.
    let top = end.wrapping_sub(end as usize % 16);
    // SAFETY: `work` runs on the room as its stack, which is large enough and
    // nothing else's; it returns, for no kernel panics, and r12, which a call
    // keeps, brings the old stack back. `job` outlives the call.
    unsafe {
        asm!(
            "mov r12, rsp",
            "mov rsp, {top}",
            "call {work}",
            "mov rsp, r12",
            top = in(reg) top,
            work = in(reg) work as extern "C" fn(&mut Job),
            in("rdi") job,
            out("r12") _,
            clobber_abi("C"),
        );
    }
    let untouched = room.iter().take_while(|&&byte| byte == paint).count();
    ROOM - untouched
}
