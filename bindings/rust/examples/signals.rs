//! What hangs on each signal of a site: `signals FILE.bdd..` puts up to 64 node files in one pool, and says of each signal how many nodes
//! test it and how many conditions depend on it. All files have the variable count of the first.
//!
//! Status 0: said on standard output. 1: a file can't be read, is refused, has another variable count or finds no room; standard error has
//! its name and the library's or the system's sentence, standard output nothing. 2: no file was named.
use houayletan::limits::BYTES_PER_NODE;
use houayletan::{Pool, Refusal, MOST_NODES};
use std::ffi::OsString;
use std::io::{Read, Write};
use std::process::ExitCode;

/// A number of things in words, where more than one take an s.
fn counted(number: usize, thing: &str) -> String {
    format!("{number} {thing}{}", if number == 1 { "" } else { "s" })
}

/// What there is to say of some conditions, each a name and the bytes of a node file; or the first that can't be put beside those before
/// it, and why.
pub fn report(conditions: &[(String, Vec<u8>)]) -> Result<String, String> {
    let mut pool = None;
    for (slot, (name, bytes)) in conditions.iter().enumerate() {
        put(&mut pool, slot, bytes).map_err(|refusal| format!("{name}: {refusal}"))?;
    }
    Ok(pool.map_or(String::new(), |pool| said(conditions.len(), &pool)))
}

/// Puts a condition in a slot of the pool, which the first one makes.
fn put(pool: &mut Option<Pool>, slot: usize, bytes: &[u8]) -> Result<usize, Refusal> {
    let words = houayletan::read_as_bytes(bytes)?;
    let pool = match pool {
        Some(pool) => pool,
        // validated, so that what is wrong with the first file is said of the file and not of a pool with its variable count
        None => pool.insert(Pool::new(MOST_NODES, houayletan::validate(&words)?.vars)?),
    };
    pool.add(slot, &words)
}

/// The lines for a pool with so many conditions. The last one says that the list is whole, so that one cut off on its way is noticed.
fn said(conditions: usize, pool: &Pool) -> String {
    let (all, nodes) = (counted(conditions, "condition"), counted(pool.nodes(), "node"));
    let mut lines = vec![format!("{all}, {nodes} in use of {} places", pool.places())];
    // a reduced condition depends on exactly the signals that its nodes test, so either number is 0 only where both are
    for (signal, record) in pool.signals().iter().enumerate().filter(|(_, record)| record.nodes > 0) {
        let (nodes, slots) = (counted(record.nodes as usize, "node"), counted(record.slots as usize, "condition"));
        lines.push(format!("signal {signal}: {nodes}, {slots}"));
    }
    let other = if lines.len() == 1 { "" } else { "other " };
    lines.push(format!("on no {other}signal does a condition depend"));
    lines.join("\n") + "\n"
}

/// A file's name and its bytes: no more than one node over the most, which are refused whatever follows.
fn read(file: &OsString) -> Result<(String, Vec<u8>), String> {
    let (name, mut bytes) = (file.to_string_lossy().into_owned(), Vec::new());
    let most = BYTES_PER_NODE * (MOST_NODES + 1);
    match std::fs::File::open(file).and_then(|file| file.take(most as u64).read_to_end(&mut bytes)) {
        Ok(_) => Ok((name, bytes)),
        Err(error) => Err(format!("{name}: {error}")),
    }
}

/// Not by `print!`, which panics where a reader such as `head` has gone.
fn write(text: String) -> Result<(), String> {
    std::io::stdout().write_all(text.as_bytes()).map_err(|error| format!("standard output: {error}"))
}

fn main() -> ExitCode {
    let files: Vec<OsString> = std::env::args_os().skip(1).collect();
    if files.is_empty() {
        eprintln!("usage: signals FILE.bdd..");
        return ExitCode::from(2);
    }
    let conditions: Result<Vec<_>, _> = files.iter().map(read).collect();
    match conditions.and_then(|conditions| report(&conditions)).and_then(write) {
        Ok(()) => ExitCode::SUCCESS,
        Err(why) => {
            eprintln!("{why}");
            ExitCode::FAILURE
        }
    }
}
