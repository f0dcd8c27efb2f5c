//! A program without the standard library and without an allocator: it reads one line into tables on its stack and writes host and
//! milliseconds of each stage. Its exit status is 0 where there were three, as there are.
//!
//! That it links shows that the crate asks for no more than `core`.

#![no_std]
#![no_main]

use core::panic::PanicInfo;

use khamdoriem::{ElementEntry, Offset, ParamEntry, Settings, Tables, Variant, Year};

const LINE: &[u8] = br#"<13>1 - gate8 reader 43 TAP [stage@32473 name="radio" ms="30"][stage@32473 name="denylist" ms="4"][stage@32473 name="paddle" ms="47"] open"#;
const SETTINGS: Settings = Settings::new(Variant::Either, Year::MIN, Offset::UTC);

// Of the C library: these two, and what any code of Rust calls (memcpy and its like).
#[link(name = "c")]
extern "C" {
    fn write(file: i32, bytes: *const u8, len: usize) -> isize;
    fn abort() -> !;
}

fn put(text: &str) {
    // SAFETY: pointer and length are those of one slice, which is only read.
    unsafe { write(1, text.as_ptr(), text.len()) };
}

#[no_mangle]
extern "C" fn main() -> i32 {
    let (mut elements, mut params) = ([ElementEntry::EMPTY; 8], [ParamEntry::EMPTY; 32]);
    let mut tables = Tables::over(&mut elements, &mut params);
    let reading = match tables.read_loose(LINE, SETTINGS) {
        Ok(answer) => answer.or_whole(),
        Err(refusal) => return refusal.number() as i32,
    };
    let stages = reading.elements_with("stage@32473");
    for stage in stages.clone() {
        for text in [reading.host_str(), stage.get("ms").map(|ms| ms.value_str())] {
            put(text.unwrap_or("-"));
            put(" ");
        }
        put("\n");
    }
    i32::from(stages.count() != 3)
}

#[panic_handler]
fn panic(_: &PanicInfo<'_>) -> ! {
    // SAFETY: it is given nothing, and ends the program.
    unsafe { abort() }
}

/// What rustc ships of `core` names this part of std's unwinding. Nothing unwinds here, so it is never called.
#[no_mangle]
extern "C" fn rust_eh_personality() {}
