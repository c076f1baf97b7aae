//! What python says of the recordings, files of calls, and numbers that look random.
#![allow(dead_code)] // each test uses a part of it
use std::fs;
use std::path::{Path, PathBuf};
use std::process::Command;
use std::sync::OnceLock;

use trusshemp::{Refusal, Surface};

/// What a buffer holds before a call.
pub const FILL: u8 = 0xA5;

/// The number of a call: 0 when accepted.
pub fn number<T>(answered: &Result<T, Refusal>) -> u16 {
    answered.as_ref().err().map_or(0, |refusal| refusal.number())
}

// ---- python

/// What a program in python writes, whose place is told from the crate's folder.
pub fn python(script: &str, arguments: &[&str]) -> String {
    let script = Path::new(env!("CARGO_MANIFEST_DIR")).join(script);
    let run = Command::new("python3").arg(&script).args(arguments).output();
    let run = run.unwrap_or_else(|error| panic!("python3 does not start, which these tests need: {error}"));
    let errors = String::from_utf8_lossy(&run.stderr);
    assert!(run.status.success(), "{} {arguments:?}: {}\n{errors}", script.display(), run.status);
    String::from_utf8(run.stdout).unwrap()
}

/// A message of the recordings, and its numbers as tools/lib/records.py reads them; none where it is not well-formed.
pub struct Message {
    pub bytes: Vec<u8>,
    pub numbers: Option<Vec<i64>>,
}

/// Those of numbers.py: "records", "replies" or "damaged".
pub fn messages(what: &str) -> Vec<Message> {
    let found: Vec<Message> = python("tests/numbers.py", &[what]).lines().map(message).collect();
    assert!(found.len() > 300, "{} {what}", found.len());
    found
}

fn message(line: &str) -> Message {
    let (hex, numbers) = line.split_once(": ").unwrap();
    let byte = |place| u8::from_str_radix(&hex[place..place + 2], 16).unwrap();
    let numbers = (numbers != "none").then(|| numbers.split(' ').map(|n| n.parse().unwrap()).collect());
    Message { bytes: (0..hex.len()).step_by(2).map(byte).collect(), numbers }
}

// ---- files of calls

/// The folder of files of calls: TRUSSHEMP_CALLS, or where that is not set one that calls.py writes here.
fn folder() -> &'static Path {
    static FOLDER: OnceLock<PathBuf> = OnceLock::new();
    FOLDER.get_or_init(|| {
        std::env::var_os("TRUSSHEMP_CALLS").map(PathBuf::from).unwrap_or_else(|| {
            let folder = Path::new(env!("CARGO_TARGET_TMPDIR")).join(env!("CARGO_CRATE_NAME"));
            let _ = fs::remove_dir_all(&folder);
            fs::create_dir_all(&folder).unwrap();
            python("../calls.py", &[folder.to_str().unwrap()]);
            folder
        })
    })
}

/// The files with that ending, each with its bytes.
pub fn files(ending: &str) -> Vec<(PathBuf, Vec<u8>)> {
    let paths = fs::read_dir(folder()).unwrap().map(|entry| entry.unwrap().path());
    let found: Vec<_> = paths
        .filter(|path| path.extension().is_some_and(|found| found == ending))
        .map(|path| (path.clone(), fs::read(path).unwrap()))
        .collect();
    assert!(found.len() > 10, "{} files .{ending}", found.len());
    found
}

/// The bytes behind a count, and what follows them.
fn counted(data: &[u8]) -> (&[u8], &[u8]) {
    let (count, rest) = data.split_at(4);
    rest.split_at(u32::from_le_bytes(count.try_into().unwrap()) as usize)
}

/// Each call of a file with what is expected.
pub fn calls(mut data: &[u8]) -> Vec<(&[u8], &[u8])> {
    let mut found = Vec::new();
    while !data.is_empty() {
        let (said, rest) = counted(data);
        let (answered, rest) = counted(rest);
        found.push((said, answered));
        data = rest;
    }
    found
}

// ---- calls of a pool

/// An answer as a message: its length, its kind, number, surface and reply. 64 stands for no surface.
fn answer_message(kind: u16, number: u16, surface: Option<Surface>, reply: &[u8]) -> Vec<u8> {
    let head = [4 + reply.len() as u16, kind, number, surface.map_or(64, |surface| surface.0 as u16)];
    [head.map(u16::to_le_bytes).as_flattened(), reply].concat()
}

/// The surface that a return names: zeros stand behind a body that is too short.
fn surface_in(body: &[u8]) -> Surface {
    Surface((0..4).map(|i| u32::from(*body.get(i).unwrap_or(&0)) << (8 * i)).sum())
}

/// The answer of a pool to a call, as docs/POOL.md lays it out; the buffer behind a reply is left as it was.
#[cfg(target_arch = "x86_64")] // the archive is for x86-64
pub fn answer(pool: &mut trusshemp::Pool, call: &[u8]) -> Vec<u8> {
    let (head, body) = call.split_at(4);
    if head[2..] == [1, 0] {
        return answer_message(1, number(&pool.give_back(surface_in(body))), None, &[]);
    }
    let mut reply = [FILL; trusshemp::REPLY + 64];
    let given = pool.step_in(body, &mut reply);
    let (len, found) = (given.bytes.len(), answer_message(0, number(&given.reply), given.surface, given.bytes));
    assert!(reply[len..].iter().all(|&b| b == FILL));
    found
}

// ---- random numbers

/// Numbers that look random, the same in every run.
pub struct Random(u64);

impl Random {
    pub fn new() -> Self {
        Random(1)
    }

    pub fn next(&mut self) -> u32 {
        self.0 = self.0.wrapping_mul(6364136223846793005).wrapping_add(1442695040888963407);
        (self.0 >> 32) as u32
    }

    pub fn below(&mut self, n: u32) -> u32 {
        self.next() % n
    }

    /// A number of any size.
    pub fn some(&mut self) -> u32 {
        let width = self.below(32);
        self.next() >> width
    }
}
