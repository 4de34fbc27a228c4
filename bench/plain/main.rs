//! Opens a cryptree store by its owner's key as docs/FORMAT.md says it, in plain Rust with nothing proved: bench/beside_plain measures the
//! program beside it.
//!
//!     rustc --edition 2024 -O bench/plain/main.rs -o PLAIN
//!     PLAIN STORE open      opens the store for writing, as `run` does before its first command
//!     PLAIN STORE list      prints what `list` prints
//!
//! The line `owner HEX64` is read from standard input. Answers and statuses are the program's.
mod follow;
mod hashing;
mod log;
mod opened;

use hashing::Mac;
use log::{HEADER, read_log};
use opened::{Key, Opened};
use std::fs::OpenOptions;
use std::io::{Read, Write};
use std::os::unix::fs::FileExt;

/// A status, and what is said.
type Fault = (i32, String);

fn damaged(at: usize) -> Fault {
    (10, format!("damaged at {at}"))
}

fn tampered(batch: u32, at: usize) -> Fault {
    (12, format!("tampered batch {batch} at {at}"))
}

/// The owner's key, if this is its line.
fn owner_key(line: &str) -> Option<[u8; 32]> {
    let digits = line.strip_suffix('\n').unwrap_or(line).strip_prefix("owner ")?;
    let bytes = (0..digits.len()).step_by(2).map(|at| u8::from_str_radix(digits.get(at..at + 2)?, 16).ok());
    bytes.collect::<Option<Vec<u8>>>()?.try_into().ok()
}

fn answer(store: &str, is_writing: bool) -> Result<Vec<u8>, Fault> {
    let mut line = String::new();
    std::io::stdin().read_to_string(&mut line).map_err(|_| (4, "read fault".into()))?;
    let key = owner_key(&line).ok_or((3, "bad script line 1".into()))?;
    let disk_fault = |_| (if is_writing { 6 } else { 9 }, "disk fault".to_string());
    let mut file = OpenOptions::new().read(true).write(is_writing).open(store).map_err(disk_fault)?;
    if is_writing {
        file.sync_data().map_err(disk_fault)?;
    }
    let mut image = Vec::new();
    file.read_to_end(&mut image).map_err(disk_fault)?;
    if image.len() < HEADER || image[..9] != *b"CRYPTREE\x01" {
        return Err((9, "not a store".into()));
    }
    let owner = Mac::new(&key);
    if owner.of(&[&[4]]) != image[9..41] {
        return Err((11, "wrong key".into()));
    }
    let (batches, slots) = read_log(&mut image, &owner, is_writing)?;
    for (place, slot) in &slots {
        file.write_all_at(slot, *place as u64).and_then(|()| file.sync_data()).map_err(disk_fault)?;
    }
    let mut opened = Opened::follow(image, batches)?;
    opened.open_all(&Key::of(&key), is_writing)?;
    if is_writing {
        std::hint::black_box(opened.index());
        return Ok(vec![]);
    }
    Ok(opened.lines())
}

fn main() {
    let words: Vec<String> = std::env::args().skip(1).collect();
    let [store, word] = &words[..] else { panic!("PLAIN STORE open or PLAIN STORE list") };
    match answer(store, word == "open") {
        Ok(printed) => std::io::stdout().write_all(&printed).unwrap(),
        Err((status, said)) => {
            eprintln!("cryptree: {said}");
            std::process::exit(status);
        }
    }
}
