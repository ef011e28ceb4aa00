//! The stack that each exported call takes: it is run on a stack of its own
//! that was painted before, and the bytes from the top to the lowest changed
//! one are counted, the return address and arguments on the stack among them.

use cdrom::registers::{ACCTL, ACMEN, ADCEN, ADTT, ASCTRL, ASTRG, BICCTL, BLIMEN, CTRL0, DECEN, TCC, TCINCEN};
use cdrom::{judge, open, raw, seal, seal_xa, Address, Chip, Facts, Kind, Record, Subheader, ANSWER_ROOM};
use ecma130::SECTOR_BYTES;
use model::{random_script, BLOCK_BYTES};
use std::arch::asm;

const STACK_BYTES: usize = 1 << 16;
/// A byte that a call happens to write as it was painted is not seen under one of these.
const PAINTS: [u8; 2] = [0xA5, 0x5A];
/// A random script of so many lines makes every call of the bench.
const SCRIPT_LINES: usize = 5000;

/// Each kind with a subheader that it takes.
const SUBHEADERS: [(Kind, Subheader); 3] = [
    (Kind::Mode1, Subheader::from_bytes([0; 4])),
    (Kind::Form1, Subheader::from_bytes([0, 0, 0x08, 0])),
    (Kind::Form2, Subheader::from_bytes([0, 0, 0x20, 0])),
];

#[repr(align(64))]
struct Stack([u8; STACK_BYTES]);

/// The address of a call of `include/cdrom.h`.
type Function = *const ();

pub fn print() {
    println!("\n{:<28}{:>12}", "bytes of stack", "touched");
    for (name, bytes) in by_call() {
        println!("{name:<28}{bytes:>12}");
    }
}

fn by_call() -> Vec<(&'static str, usize)> {
    let mut calls = sector_calls();
    calls.extend(chip_calls());
    calls.push(("cdrom_bench", of_bench()));
    calls
}

fn sector_calls() -> Vec<(&'static str, usize)> {
    vec![
        ("cdrom_seal", of_sector_call(raw::cdrom_seal as Function)),
        ("cdrom_seal_xa", of_seal_xa()),
        ("cdrom_open", of_sector_call(raw::cdrom_open as Function)),
        ("cdrom_judge", of_sector_call(raw::cdrom_judge as Function)),
        ("cdrom_parity", of_sector_call(raw::cdrom_parity as Function)),
        ("cdrom_edc", of_sector_call(raw::cdrom_edc as Function)),
        ("cdrom_next_address", of_next_address()),
    ]
}

/// The calls that touch no memory share their code but for the register and the command: a start, which does most.
fn chip_calls() -> Vec<(&'static str, usize)> {
    let lent = Lent::new();
    let (ring, room) = ([lent.ring.as_ptr() as u64, lent.ring.len() as u64], lent.words.as_ptr() as u64);
    let sector = [lent.sector.as_ptr() as u64, lent.sector.len() as u64];
    let count = &mut 0_usize as *mut usize as u64;
    let of = |function, record, rest: [u64; 5]| of_chip_call(function, record, rest);
    vec![
        ("cdrom_chip_open", of(raw::cdrom_chip_open as Function, lent.decoding, [25, 0, 0, 0, 0])),
        ("cdrom_chip_write", of(raw::cdrom_chip_write as Function, lent.ready, [ASTRG as u64, ADTT as u64, 0, 0, 0])),
        ("cdrom_chip_read", of(raw::cdrom_chip_read as Function, lent.ready, [TCC as u64, 0, 0, 0, 0])),
        ("cdrom_chip_command", of(raw::cdrom_chip_command as Function, lent.decoding, [0x28, 0, 0, 0, 0])),
        ("cdrom_chip_status", of(raw::cdrom_chip_status as Function, lent.ready, [0; 5])),
        ("cdrom_chip_irq", of(raw::cdrom_chip_irq as Function, lent.ready, [0; 5])),
        ("cdrom_chip_why", of(raw::cdrom_chip_why as Function, lent.ready, [0; 5])),
        (
            "cdrom_chip_sector",
            of(raw::cdrom_chip_sector as Function, lent.decoding, [ring[0], ring[1], sector[0], sector[1], 0]),
        ),
        ("cdrom_chip_look", of(raw::cdrom_chip_look as Function, lent.ready, [ring[0], ring[1], count, 0, 0])),
        ("cdrom_chip_word", of(raw::cdrom_chip_word as Function, lent.last, [ring[0], ring[1], 0, 0, 0])),
        (
            "cdrom_chip_words",
            of(raw::cdrom_chip_words as Function, lent.started, [ring[0], ring[1], room, 1024, count]),
        ),
    ]
}

/// What a chip is lent, and its record while it decodes, with a good block, with a transfer started, and before its last word.
struct Lent {
    ring: Vec<u8>,
    sector: Vec<u8>,
    words: Vec<u16>,
    decoding: Record,
    ready: Record,
    started: Record,
    last: Record,
}

impl Lent {
    fn new() -> Lent {
        let (mut ring, mut sector, mut words) = (vec![0; 25 * BLOCK_BYTES], vec![0x11; SECTOR_BYTES], vec![0; 1024]);
        seal(&mut sector, Address { minute: 0, second: 2, frame: 0 }).unwrap();
        let mut chip = Chip::open(25, &mut ring).unwrap();
        for (register, value) in [(BICCTL, BLIMEN), (ACCTL, ACMEN | TCINCEN), (ASCTRL, ADCEN), (CTRL0, DECEN)] {
            chip.write(register, value).unwrap();
        }
        chip.set_window(16, 1024).unwrap();
        let decoding = chip.record();
        chip.sector(&sector).unwrap();
        chip.command(0x28).unwrap();
        let ready = chip.record();
        chip.write(ASTRG, ADTT).unwrap();
        let started = chip.record();
        chip.words(&mut words[1..]).unwrap();
        let last = chip.record();
        Lent { ring, sector, words, decoding, ready, started, last }
    }
}

fn of_chip_call(function: Function, record: Record, rest: [u64; 5]) -> usize {
    let touched = PAINTS.map(|paint| {
        let mut record = record;
        let [a, b, c, d, e] = rest;
        // SAFETY: each call takes a record first, and the others' memory outlives it; numbers that it does not take it does not read.
        unsafe { touched(paint, function, [record.as_mut_ptr() as u64, a, b, c, d, e], &[]) }
    });
    touched[0].max(touched[1])
}

/// From the last address, which goes through all of its carries.
fn of_next_address() -> usize {
    let touched = PAINTS.map(|paint| {
        // SAFETY: the call takes three numbers.
        unsafe { touched(paint, raw::cdrom_next_address as Function, [99, 59, 74, 0, 0, 0], &[]) }
    });
    touched[0].max(touched[1])
}

/// The most over the three kinds.
fn of_sector_call(function: Function) -> usize {
    let each = SUBHEADERS.iter().flat_map(|(kind, subheader)| PAINTS.map(|paint| (kind, subheader, paint)));
    let touched = each.map(|(kind, subheader, paint)| {
        let mut sector = good_sector(*kind, *subheader);
        // SAFETY: each call takes a sector, and some an address after it; the others do not read those registers.
        unsafe { touched(paint, function, [sector.as_mut_ptr() as u64, sector.len() as u64, 0, 2, 0, 0], &[]) }
    });
    touched.max().expect("three kinds")
}

/// The same; the subheader comes behind the six numbers in registers.
fn of_seal_xa() -> usize {
    let each = SUBHEADERS.iter().flat_map(|(kind, subheader)| PAINTS.map(|paint| (kind, subheader, paint)));
    let touched = each.map(|(kind, subheader, paint)| {
        let (mut sector, bytes) = (good_sector(*kind, *subheader), subheader.bytes());
        let first = [sector.as_mut_ptr() as u64, sector.len() as u64, 0, 2, 0, kind.number().into()];
        // SAFETY: the call takes a sector, an address, a kind and a subheader; the number behind that is there for the alignment.
        unsafe { touched(paint, raw::cdrom_seal_xa as Function, first, &[bytes.as_ptr() as u64, 0]) }
    });
    touched.max().expect("three kinds")
}

fn of_bench() -> usize {
    let text = random_script(1, SCRIPT_LINES);
    let (mut memory, mut sector) = (vec![0; 25 * BLOCK_BYTES], vec![0; SECTOR_BYTES]);
    let mut out = vec![0; SCRIPT_LINES * ANSWER_ROOM];
    let touched = PAINTS.map(|paint| {
        let [memory, sector, out] =
            [&mut memory, &mut sector, &mut out].map(|b| [b.as_mut_ptr() as u64, b.len() as u64]);
        let first = [memory[0], memory[1], sector[0], sector[1], text.as_ptr() as u64, text.len() as u64];
        // SAFETY: the call takes four slices; the first three fill the registers.
        unsafe { touched(paint, raw::cdrom_bench as Function, first, &out) }
    });
    assert!(out.starts_with(b"n=1 "), "the script was run");
    touched[0].max(touched[1])
}

/// Opened, at 00:02:00: no call refuses it.
fn good_sector(kind: Kind, subheader: Subheader) -> Vec<u8> {
    let mut sector = vec![0x11; SECTOR_BYTES];
    let address = Address { minute: 0, second: 2, frame: 0 };
    seal_xa(&mut sector, address, kind, subheader).unwrap();
    open(&mut sector).unwrap();
    assert!(judge(&sector, address).is_ok_and(Facts::is_good));
    sector
}

/// Runs a C function of whole numbers: six in registers, the rest, of an even number, on the stack.
unsafe fn touched(paint: u8, function: Function, registers: [u64; 6], rest: &[u64]) -> usize {
    assert!(rest.len().is_multiple_of(2), "the stack is aligned to 16 bytes at a call");
    let mut stack = Box::new(Stack([paint; STACK_BYTES]));
    let start = STACK_BYTES - size_of_val(rest);
    for (place, argument) in stack.0[start..].chunks_exact_mut(8).zip(rest) {
        place.copy_from_slice(&argument.to_ne_bytes());
    }
    call_on(stack.0.as_mut_ptr().add(start), function, registers);
    let untouched = stack.0.iter().take_while(|&&byte| byte == paint).count();
    assert!(untouched > 0, "the call takes more than {STACK_BYTES} bytes");
    STACK_BYTES - untouched
}

/// Calls a function on the stack that ends at `top`.
unsafe fn call_on(top: *mut u8, function: Function, arguments: [u64; 6]) {
    asm!(
        "mov r12, rsp",
        "mov rsp, {top}",
        "call {function}",
        "mov rsp, r12",
        top = in(reg) top,
        function = in(reg) function,
        in("rdi") arguments[0],
        in("rsi") arguments[1],
        in("rdx") arguments[2],
        in("rcx") arguments[3],
        in("r8") arguments[4],
        in("r9") arguments[5],
        out("r12") _,
        clobber_abi("C"),
    );
}

#[cfg(test)]
mod tests {
    use super::*;
    use model::parse;
    use std::collections::BTreeSet;

    /// The scrambling sequence is 2,340 bytes of it, the code's ring of words and its run of bytes 512. The chip's sector and the
    /// bench have the chip's record several times besides.
    #[test]
    fn each_call_keeps_below_its_limit() {
        for (name, bytes) in by_call() {
            let limit = match name {
                "cdrom_bench" => 5 * 1024,
                "cdrom_chip_sector" => 4 * 1024,
                "cdrom_seal" | "cdrom_seal_xa" | "cdrom_open" => 3 * 1024,
                "cdrom_judge" | "cdrom_parity" | "cdrom_edc" | "cdrom_next_address" => 1024,
                _ => 2 * 1024,
            };
            assert!(bytes < limit, "{name} takes {bytes} bytes of stack");
        }
    }

    #[test]
    fn the_script_makes_every_call() {
        let text = random_script(1, SCRIPT_LINES);
        let calls = text.split(|&byte| byte == b'\n').filter_map(parse);
        assert_eq!(calls.map(|call| call.name()).collect::<BTreeSet<_>>().len(), 18);
    }
}
