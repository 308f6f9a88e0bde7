//! The program of `docs/SCRIPT.md` in ordinary Rust: `HashMap`s and `BTreeMap`s, one `Mutex` around the state, an atomic
//! word for each slot. It does not free its memory at the end. Nothing of it is proved. `bench/ordinary.py` compares its
//! processor time with that of `blobctl`. With `--both-hashes` it hashes each chunk by SHA-256 and SHA-512 on arrival,
//! because a close may use either. Otherwise it uses SHA-512 only if a close does, as `blobctl` does.

mod book;
mod digest;
mod manifest;
mod name;
mod player;
mod script;

use digest::Hashing;
use std::io::{self, Read, Write};
use std::process::exit;

/// The options and arguments of the command line.
pub struct Options {
    pub slots: usize,
    pub max_blob: u64,
    pub workers: usize,
    pub hashing: Hashing,
    pub tenants: Vec<(String, u64)>,
}

fn options() -> Option<Options> {
    let mut options = Options {
        slots: 64,
        max_blob: 1 << 20,
        workers: 1,
        hashing: Hashing::Late,
        tenants: Vec::new(),
    };
    let mut words = std::env::args().skip(1);
    while let Some(word) = words.next() {
        match word.as_str() {
            "--slots" => options.slots = words.next()?.parse().ok()?,
            "--max-blob" => options.max_blob = words.next()?.parse().ok()?,
            "--both-hashes" => options.hashing = Hashing::Both,
            "--workers" => options.workers = words.next()?.parse().ok()?,
            _ => {
                let (name, quota) = word.split_once('=')?;
                options.tenants.push((name.to_string(), quota.parse().ok()?));
            }
        }
    }
    Some(options)
}

fn main() {
    let Some(options) = options() else {
        eprintln!("ordinary: cannot read the arguments: not --slots, --max-blob, --both-hashes, --workers or TENANT=QUOTA");
        exit(2);
    };
    let mut script = Vec::new();
    if io::stdin().lock().read_to_end(&mut script).is_err() {
        exit(3);
    }
    let rows = match script::rows(&script) {
        Ok(rows) => rows,
        Err(number) => {
            eprintln!("ordinary: cannot read the script: bad row {number}");
            exit(1);
        }
    };
    drop(script);
    let book = book::Book::new(&options);
    let (replies, book) = player::play(&rows, book, options.workers, options.hashing);
    let mut out = io::BufWriter::with_capacity(1 << 16, io::stdout().lock());
    let written = replies
        .iter()
        .enumerate()
        .try_for_each(|(i, reply)| reply.write(i + 1, &mut out))
        .and_then(|()| book.print(&mut out))
        .and_then(|()| out.flush());
    exit(if written.is_ok() { 0 } else { 4 });
}
