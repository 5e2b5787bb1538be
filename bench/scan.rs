//! The plain scan that `bench/run` holds the index against: no index, all distances.
//!
//! `scan SCRIPT` reads a script of `insert`, `range` and `nearest` records of 16 coordinates, and
//! writes for each query a line `range,ROWS` or `nearest,ROWS` and the rows `DISTANCE,ID`, in
//! order of distance, then identifier.

use std::io::{self, BufWriter, Write};

const DIMS: usize = 16;

type Point = [i32; DIMS];
type Row = (u32, u64);

fn distance(one: &Point, other: &Point) -> u32 {
    one.iter().zip(other).map(|(a, b)| a.abs_diff(*b)).sum()
}

/// The rows of all objects within the radius.
fn range(points: &[Point], ids: &[u64], radius: u32, query: &Point) -> Vec<Row> {
    let mut rows = Vec::new();
    for (point, id) in points.iter().zip(ids) {
        let far = distance(point, query);
        if far <= radius {
            rows.push((far, *id));
        }
    }
    rows.sort_unstable();
    rows
}

/// The rows of the nearest: they alone are sorted, once they are parted from the others.
fn nearest(points: &[Point], ids: &[u64], count: usize, query: &Point) -> Vec<Row> {
    let pairs = points.iter().zip(ids);
    let mut rows: Vec<Row> = pairs
        .map(|(point, id)| (distance(point, query), *id))
        .collect();
    if count < rows.len() {
        rows.select_nth_unstable(count);
        rows.truncate(count);
    }
    rows.sort_unstable();
    rows
}

fn send(out: &mut impl Write, word: &str, rows: &[Row]) -> io::Result<()> {
    writeln!(out, "{word},{}", rows.len())?;
    for (far, id) in rows {
        writeln!(out, "{far},{id}")?;
    }
    Ok(())
}

fn main() -> io::Result<()> {
    let Some(name) = std::env::args().nth(1) else {
        eprintln!("usage: scan SCRIPT");
        std::process::exit(1);
    };
    let text = std::fs::read_to_string(name)?;
    let mut out = BufWriter::new(io::stdout().lock());
    let (mut points, mut ids) = (Vec::new(), Vec::new());
    for line in text.lines() {
        let (word, fields) = line.split_once(',').expect("a word and numbers");
        let mut numbers = fields.split(',').map(|field| field.parse::<u64>());
        let mut next = || numbers.next().expect("17 numbers").expect("a number");
        let number = next();
        let point: Point = std::array::from_fn(|_| next() as i32);
        match word {
            "insert" => {
                points.push(point);
                ids.push(number);
            }
            "range" => {
                let rows = range(&points, &ids, number as u32, &point);
                send(&mut out, word, &rows)?;
            }
            "nearest" => {
                let rows = nearest(&points, &ids, number as usize, &point);
                send(&mut out, word, &rows)?;
            }
            _ => panic!("a record that the scan doesn't know: {line}"),
        }
    }
    out.flush()
}
