//! Times calls of the Rust crate `cacache` in bulk, with the words of `bench` that it has too: the nanoseconds of one operation
//! come on standard error.
use cacache::{Integrity, Result, SyncReader, SyncWriter};
use std::hint::black_box;
use std::io::{self, Read, Write};
use std::time::Instant;

const MIB: usize = 1024 * 1024;
const PIECE: usize = 8192;
const LARGE: &str = "large";

/// The work that the words ask for.
struct Work<'a> {
    word: &'a str,
    cache: &'a str,
    first: usize,
    size: usize,
}

fn key_of(number: usize) -> String {
    format!("key-{number}")
}

/// Puts so many keys, each with its number in eight bytes, then zeros.
fn put_keys(work: &Work, size: usize) -> Result<()> {
    let mut content = vec![0; size];
    for number in 0..work.first {
        let digits = (number as u64).to_le_bytes();
        let count = size.min(digits.len());
        content[..count].copy_from_slice(&digits[..count]);
        cacache::write_sync(work.cache, key_of(number), &content)?;
    }
    Ok(())
}

/// The integrities of what the keys hold.
fn integrities_of(work: &Work) -> Result<Vec<Integrity>> {
    let contents = (0..work.first).map(|number| cacache::read_sync(work.cache, key_of(number)));
    contents.map(|it| it.map(Integrity::from)).collect()
}

/// Makes what the work takes to be there, and returns the integrities that it reads by.
fn prepare(work: &Work) -> Result<Vec<Integrity>> {
    match work.word {
        "put-again" => put_keys(work, work.size)?,
        "remove" => put_keys(work, 8)?,
        "get-hash" | "exists" => return integrities_of(work),
        _ => {}
    }
    Ok(Vec::new())
}

fn write_pieces(work: &Work) -> Result<()> {
    let mut writer = SyncWriter::create(work.cache, LARGE)?;
    let piece = [0; PIECE];
    for _ in 0..work.first * MIB / PIECE {
        writer.write_all(&piece).expect("the piece is written");
    }
    writer.commit().map(drop)
}

fn read_pieces(work: &Work) -> Result<()> {
    let mut reader = SyncReader::open(work.cache, LARGE)?;
    let mut piece = [0; PIECE];
    while reader.read(&mut piece).expect("the piece is read") > 0 {}
    reader.check().map(drop)
}

/// Makes a call for each of these.
fn each<A, B>(all: impl Iterator<Item = A>, call: impl Fn(A) -> Result<B>) -> Result<()> {
    all.map(call)
        .try_for_each(|it| it.map(|it| drop(black_box(it))))
}

/// Does the work, and returns how many operations that were.
fn perform(work: &Work, content: &[u8], integrities: &[Integrity]) -> Result<usize> {
    let Work { cache, first, .. } = *work;
    let (keys, stored) = ((0..first).map(key_of), integrities.iter());
    match work.word {
        "put" | "put-again" => put_keys(work, work.size)?,
        "get" => each(keys, |key| cacache::read_sync(cache, key))?,
        "find" => each(keys, |key| cacache::metadata_sync(cache, key))?,
        "remove" => each(keys, |key| cacache::remove_sync(cache, key))?,
        "get-hash" => each(stored, |it| cacache::read_hash_sync(cache, it))?,
        "exists" => each(stored, |it| Ok(cacache::exists_sync(cache, it)))?,
        "ls" => {
            return cacache::list_sync(cache).try_fold(0, |count, entry| entry.map(|_| count + 1))
        }
        "put-large" => return cacache::write_sync(cache, LARGE, content).map(|_| 1),
        "get-large" => return cacache::read_sync(cache, LARGE).map(black_box).map(|_| 1),
        "writer" => return write_pieces(work).map(|()| 1),
        "reader" => return read_pieces(work).map(|()| 1),
        word => panic!("no such word: {word}"),
    }
    Ok(first)
}

fn main() -> io::Result<()> {
    let words: Vec<String> = std::env::args().skip(1).collect();
    let number = |at: usize| words.get(at).map_or(0, |it| it.parse().unwrap_or(0));
    let work = Work {
        word: &words[0],
        cache: &words[1],
        first: number(2),
        size: number(3),
    };
    let large = work.first * MIB * usize::from(work.word == "put-large");
    let content = vec![0; large];
    let integrities = prepare(&work).expect("what the work takes is made");
    let start = Instant::now();
    let count = perform(&work, &content, &integrities).expect("the work is done");
    writeln!(
        io::stderr(),
        "ns {}",
        start.elapsed().as_nanos() / count.max(1) as u128
    )
}
