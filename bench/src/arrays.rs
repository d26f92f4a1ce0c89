//! Arrays of 10 to 1,000,000 `int4`, written and read by us, by postgres-types, and by a plain loop over memory that
//! tests no more than the lengths: nanoseconds an element.
use crate::ours::{framed, lists, pgv_bench_read_i32s, BINARY};
use crate::peer::{decoded, frames, written, Seen};
use crate::turns::{least_of, Work};
use crate::values::{in_lists, many};
use postgres_types::Type;
use std::hint::black_box;

const SIZES: [usize; 6] = [10, 100, 1000, 10_000, 100_000, 1_000_000];

/// How many elements a round has at least.
const ELEMENTS: usize = 100_000;

fn word(bytes: &[u8]) -> u32 {
    u32::from_be_bytes(bytes[..4].try_into().expect("four bytes"))
}

/// What comes before the elements of an array, and its length before that.
fn header(count: usize) -> [u8; 24] {
    let mut header = [0; 24];
    let words = [20 + 8 * count as u32, 1, 0, 23, count as u32, 1];
    for (cell, word) in header.chunks_exact_mut(4).zip(words) {
        cell.copy_from_slice(&word.to_be_bytes());
    }
    header
}

fn write_plainly(lists: &[Vec<i32>]) -> usize {
    let total = lists.iter().map(|list| 24 + 8 * list.len()).sum();
    let mut out: Vec<u8> = Vec::with_capacity(total);
    // Each byte is written below before one is read.
    unsafe { out.set_len(total) };
    let mut rest = &mut out[..];
    for list in lists {
        let (front, others) = rest.split_at_mut(24 + 8 * list.len());
        rest = others;
        front[..24].copy_from_slice(&header(list.len()));
        for (cell, value) in front[24..].chunks_exact_mut(8).zip(list) {
            cell[..4].copy_from_slice(&4u32.to_be_bytes());
            cell[4..].copy_from_slice(&value.to_be_bytes());
        }
    }
    black_box(&out).len()
}

fn read_plainly(bytes: &[u8]) -> usize {
    let (mut rest, mut sum) = (bytes, 0usize);
    while !rest.is_empty() {
        let (frame, others) = rest[4..].split_at(word(rest) as usize);
        rest = others;
        let mut all = true;
        let mut list: Vec<i32> = Vec::with_capacity(word(&frame[12..]) as usize);
        list.extend(frame[20..].chunks_exact(8).map(|cell| {
            all &= word(cell) == 4;
            word(&cell[4..]) as i32
        }));
        assert!(all);
        sum = sum.wrapping_add(list.seen());
    }
    sum
}

fn each<'a, V: ?Sized>(values: &'a V, once: fn(&V) -> usize) -> Work<'a> {
    Box::new(move |rounds| (0..rounds).fold(0usize, |sum, _| sum.wrapping_add(once(black_box(values)))))
}

/// The three least times, or nothing where two checksums differ.
fn compared(works: Vec<Work>, elements: usize) -> Option<Vec<f64>> {
    let sums: Vec<usize> = works.iter().map(|work| work(3)).collect();
    sums.iter().all(|sum| *sum == sums[0]).then(|| least_of(works, elements))
}

/// Prints a row for each size, and returns whether all checksums were equal.
pub fn print() -> bool {
    println!("| Elements | encode: ours | postgres-types | plain loop | decode: ours | postgres-types | plain loop |\n|---|---|---|---|---|---|---|");
    SIZES.into_iter().all(|size| {
        let elements = ELEMENTS.max(size);
        let values = many(elements, 1, |numbers| numbers.next() as i32);
        let arrays = in_lists(&values, size);
        let bytes = frames(&arrays, &Type::INT4_ARRAY);
        let wrote = compared(vec![lists(&values, size as u32), written(&arrays, Type::INT4_ARRAY), each(&arrays[..], write_plainly)], elements);
        let read = compared(
            vec![framed(pgv_bench_read_i32s, &bytes, BINARY), decoded::<Vec<i32>>(&bytes, Type::INT4_ARRAY), each(&bytes[..], read_plainly)],
            elements,
        );
        let (Some(wrote), Some(read)) = (wrote, read) else {
            println!("| {size} | checksums differ |");
            return false;
        };
        let cells: Vec<String> = wrote.iter().chain(&read).map(|time| format!("{time:.2}")).collect();
        println!("| {size} | {} |", cells.join(" | "));
        true
    })
}
