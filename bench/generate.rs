//! Writes the scripts that `bench/run` measures, always the same for the same numbers.
//!
//! `generate FOLDER OBJECTS QUERIES` makes `FOLDER/clustered` and `FOLDER/uniform` with
//! - `first.csv`: the first 2,000 inserts, among which pivots are chosen;
//! - `inserts.csv`: all inserts; `ranges.csv` and `nearest.csv`: queries behind them;
//! - `part-0.csv` to `part-2.csv`: the inserts dealt out to three scripts;
//! - `mix-0.csv` to `mix-2.csv`: the same with a query behind each ten inserts.

use std::fs::{self, File};
use std::io::{self, BufWriter, Write};
use std::path::Path;

const DIMS: usize = 16;
const GREATEST: u64 = 1_000;
const CLUSTERS: usize = 100;
const SPREAD: u64 = 30;
const CHOSEN_AMONG: usize = 2_000;
const SCRIPTS: usize = 3;
const NEAREST: u32 = 10;

type Point = [u64; DIMS];

/// Random numbers by SplitMix64, which no library's version changes.
struct Random(u64);

impl Random {
    fn next(&mut self) -> u64 {
        self.0 = self.0.wrapping_add(0x9e37_79b9_7f4a_7c15);
        let mut mixed = self.0;
        mixed = (mixed ^ (mixed >> 30)).wrapping_mul(0xbf58_476d_1ce4_e5b9);
        mixed = (mixed ^ (mixed >> 27)).wrapping_mul(0x94d0_49bb_1331_11eb);
        mixed ^ (mixed >> 31)
    }

    fn within(&mut self, least: u64, greatest: u64) -> u64 {
        let count = u128::from(greatest - least + 1);
        least + ((u128::from(self.next()) * count) >> 64) as u64
    }

    fn point(&mut self, least: u64, greatest: u64) -> Point {
        std::array::from_fn(|_| self.within(least, greatest))
    }
}

/// Where objects and queries are drawn from.
struct Space {
    random: Random,
    /// The points that all others lie about; with none they lie anywhere.
    centres: Vec<Point>,
    radius: u32,
}

impl Space {
    fn clustered() -> Self {
        let mut random = Random(1);
        let draw = |_| random.point(SPREAD, GREATEST - SPREAD);
        let centres = (0..CLUSTERS).map(draw).collect();
        Space {
            random,
            centres,
            radius: 300,
        }
    }

    fn uniform() -> Self {
        Space {
            random: Random(2),
            centres: Vec::new(),
            radius: 2_100,
        }
    }

    fn draw(&mut self) -> Point {
        if self.centres.is_empty() {
            return self.random.point(0, GREATEST);
        }
        let place = self.random.within(0, self.centres.len() as u64 - 1);
        let centre = self.centres[place as usize];
        centre.map(|middle| self.random.within(middle - SPREAD, middle + SPREAD))
    }

    fn draw_many(&mut self, count: usize) -> Vec<Point> {
        (0..count).map(|_| self.draw()).collect()
    }
}

fn record(out: &mut impl Write, head: &str, point: &Point) -> io::Result<()> {
    write!(out, "{head}")?;
    for coordinate in point {
        write!(out, ",{coordinate}")?;
    }
    writeln!(out)
}

fn insert(out: &mut impl Write, id: usize, point: &Point) -> io::Result<()> {
    record(out, &format!("insert,{id}"), point)
}

fn inserts(path: &Path, objects: &[Point]) -> io::Result<BufWriter<File>> {
    let mut out = BufWriter::new(File::create(path)?);
    for (id, point) in objects.iter().enumerate() {
        insert(&mut out, id, point)?;
    }
    Ok(out)
}

/// Deals the objects out; where there are queries, one comes behind each ten inserts.
fn deal(
    folder: &Path,
    name: &str,
    objects: &[Point],
    queries: &[Point],
    radius: u32,
) -> io::Result<()> {
    for script in 0..SCRIPTS {
        let path = folder.join(format!("{name}-{script}.csv"));
        let mut out = BufWriter::new(File::create(path)?);
        for (turn, id) in (script..objects.len()).step_by(SCRIPTS).enumerate() {
            insert(&mut out, id, &objects[id])?;
            if turn % 10 == 9 && !queries.is_empty() {
                let query = &queries[id % queries.len()];
                let head = match turn % 20 {
                    9 => format!("range,{radius}"),
                    _ => format!("nearest,{NEAREST}"),
                };
                record(&mut out, &head, query)?;
            }
        }
        out.flush()?;
    }
    Ok(())
}

fn write_all(folder: &Path, mut space: Space, objects: usize, queries: usize) -> io::Result<()> {
    fs::create_dir_all(folder)?;
    let objects = space.draw_many(objects);
    let queries = space.draw_many(queries);
    let first = &objects[..objects.len().min(CHOSEN_AMONG)];
    inserts(&folder.join("first.csv"), first)?.flush()?;
    inserts(&folder.join("inserts.csv"), &objects)?.flush()?;
    let heads = [
        ("ranges.csv", format!("range,{}", space.radius)),
        ("nearest.csv", format!("nearest,{NEAREST}")),
    ];
    for (name, head) in heads {
        let mut out = inserts(&folder.join(name), &objects)?;
        for query in &queries {
            record(&mut out, &head, query)?;
        }
        out.flush()?;
    }
    deal(folder, "part", &objects, &[], space.radius)?;
    deal(folder, "mix", &objects, &queries, space.radius)
}

fn main() -> io::Result<()> {
    let words: Vec<String> = std::env::args().collect();
    let [_, folder, objects, queries] = words.as_slice() else {
        eprintln!("usage: generate FOLDER OBJECTS QUERIES");
        std::process::exit(1);
    };
    let number = |word: &String| word.parse::<usize>().expect("a number");
    let folder = Path::new(folder);
    for (name, space) in [
        ("clustered", Space::clustered()),
        ("uniform", Space::uniform()),
    ] {
        write_all(&folder.join(name), space, number(objects), number(queries))?;
    }
    Ok(())
}
