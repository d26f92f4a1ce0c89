//! The rows that both sides have.
use crate::ours::*;
use crate::peer::{bound, decoded, frames, written, written_again, Octets, Seen};
use crate::turns::Bench;
use crate::values::{in_lists, many};
use chrono::{DateTime, NaiveDate, NaiveDateTime, NaiveTime, Utc};
use postgres_types::{FromSql, Kind, ToSql, Type};
use std::collections::HashMap;
use uuid::Uuid;

/// How many values a round has.
const COUNT: usize = 1000;

fn numbers_of(count: usize) -> Vec<i32> {
    many(count, 1, |numbers| numbers.next() as i32)
}

fn texts_of(count: usize) -> Vec<String> {
    many(count, 2, |numbers| numbers.text())
}

fn ids_of(bytes: &[u8]) -> Vec<Uuid> {
    bytes.chunks(16).map(|id| Uuid::from_slice(id).expect("sixteen bytes")).collect()
}

/// A number, or null where its rest by 4 is 3.
fn options_of(lists: &[Vec<i32>]) -> Vec<Vec<Option<i32>>> {
    lists.iter().map(|list| list.iter().map(|number| (number % 4 != 3).then_some(*number)).collect()).collect()
}

pub fn writing(bench: &mut Bench) {
    let values = numbers_of(COUNT);
    let long: Vec<i64> = values.iter().map(|value| i64::from(*value) << 20).collect();
    let above: Vec<bool> = values.iter().map(|value| *value > 0).collect();
    let id_bytes = many(16 * COUNT, 3, |numbers| numbers.next() as u8);
    bench.row("encode int4", COUNT, numbers(&values), written(&values, Type::INT4));
    bench.row("encode int8", COUNT, long_numbers(&long), written(&long, Type::INT8));
    bench.row("encode bool", COUNT, truths(&values), written(&above, Type::BOOL));
    bench.row("encode uuid", COUNT, framed(pgv_bench_write_uuid, &id_bytes, ENCODE), written(&ids_of(&id_bytes), Type::UUID));
    let texts = texts_of(COUNT);
    bench.row("encode text of 11.5 bytes", COUNT, Texts::new(&texts).written(), written(&texts, Type::TEXT));
    let texts = texts_of(5 * COUNT);
    bench.row("encode text[] of 5", COUNT, Texts::new(&texts).in_lists(5), written(&in_lists(&texts, 5), Type::TEXT_ARRAY));
    for (length, count) in [(10, COUNT), (1000, 100), (100_000, 1)] {
        let values = numbers_of(length * count);
        let name = format!("encode int4[] of {length}");
        bench.row(&name, count, lists(&values, length as u32), written(&in_lists(&values, length), Type::INT4_ARRAY));
    }
    let values = numbers_of(10 * COUNT);
    let some = options_of(&in_lists(&values, 10));
    bench.row("encode int4[] of 10 with nulls", COUNT, options(&values, 10), written(&some, Type::INT4_ARRAY));
}

/// Reading of values in binary.
fn read<T: ToSql + for<'a> FromSql<'a> + Seen>(bench: &mut Bench, name: &str, values: &[T], export: Framed, ty: Type) {
    let frames = frames(values, &ty);
    bench.row(&format!("get+decode {name}"), values.len(), framed(export, &frames, BINARY), decoded::<T>(&frames, ty));
}

pub fn reading(bench: &mut Bench) {
    let values = numbers_of(COUNT);
    let long: Vec<i64> = values.iter().map(|value| i64::from(*value) << 20).collect();
    let above: Vec<bool> = values.iter().map(|value| *value > 0).collect();
    read(bench, "int4", &values, pgv_bench_read_i32, Type::INT4);
    read(bench, "int8", &long, pgv_bench_read_i64, Type::INT8);
    read(bench, "bool", &above, pgv_bench_read_bool, Type::BOOL);
    let id_bytes = many(16 * COUNT, 3, |numbers| numbers.next() as u8);
    read(bench, "uuid", &ids_of(&id_bytes), pgv_bench_read_uuid, Type::UUID);
    read(bench, "text of 11.5 bytes", &texts_of(COUNT), pgv_bench_read_text, Type::TEXT);
    read(bench, "text[] of 5", &in_lists(&texts_of(5 * COUNT), 5), pgv_bench_read_texts, Type::TEXT_ARRAY);
    for (length, count) in [(10, COUNT), (1000, 100), (100_000, 1)] {
        let lists = in_lists(&numbers_of(length * count), length);
        read(bench, &format!("int4[] of {length}"), &lists, pgv_bench_read_i32s, Type::INT4_ARRAY);
    }
    let some = options_of(&in_lists(&numbers_of(10 * COUNT), 10));
    read(bench, "int4[] of 10 with nulls", &some, pgv_bench_read_options, Type::INT4_ARRAY);
}

/// Writing and reading by an export that takes frames.
fn both<T: ToSql + for<'a> FromSql<'a> + Seen>(bench: &mut Bench, name: &str, values: &[T], export: Framed, ty: &Type) {
    let frames = frames(values, ty);
    let count = values.len();
    bench.row(&format!("encode {name}"), count, framed(export, &frames, ENCODE), written_again::<T>(&frames, ty.clone()));
    bench.row(&format!("get+decode {name}"), count, framed(export, &frames, DECODE), decoded::<T>(&frames, ty.clone()));
}

pub fn moments(bench: &mut Bench) {
    let instants = many(COUNT, 4, |numbers| numbers.moment());
    let local: Vec<NaiveDateTime> = instants.iter().map(DateTime::<Utc>::naive_utc).collect();
    let days: Vec<NaiveDate> = local.iter().map(NaiveDateTime::date).collect();
    let times: Vec<NaiveTime> = local.iter().map(NaiveDateTime::time).collect();
    both(bench, "date", &days, pgv_bench_date, &Type::DATE);
    both(bench, "time", &times, pgv_bench_time, &Type::TIME);
    both(bench, "timestamp", &local, pgv_bench_timestamp, &Type::TIMESTAMP);
    both(bench, "timestamptz", &instants, pgv_bench_timestamptz, &Type::TIMESTAMPTZ);
}

pub fn others(bench: &mut Bench) {
    let bits = many(COUNT, 5, |numbers| numbers.bits());
    let octets = many(COUNT, 6, |numbers| Octets(numbers.octets()));
    let maps: Vec<HashMap<String, Option<String>>> = many(COUNT, 7, |numbers| numbers.map());
    let hstore = Type::new("hstore".into(), 16_700, Kind::Simple, "public".into());
    both(bench, "varbit", &bits, pgv_bench_varbit, &Type::VARBIT);
    both(bench, "bytea", &octets, pgv_bench_bytea, &Type::BYTEA);
    both(bench, "hstore of 5", &maps, pgv_bench_hstore, &hstore);
}

/// The body of a row of an `int4`, a `text`, an `int8`, a `bool` and a `date`.
fn row_body(number: i32, text: &String, day: NaiveDate) -> Vec<u8> {
    let mut body = vec![0, 5];
    body.extend(frames(&[number], &Type::INT4));
    body.extend(frames(&[text], &Type::TEXT));
    body.extend(frames(&[i64::from(number) << 20], &Type::INT8));
    body.extend(frames(&[number > 0], &Type::BOOL));
    body.extend(frames(&[day], &Type::DATE));
    body
}

/// A COPY stream of rows of three fields, read as lists, into one list, whose values are taken or stay, and as tuples,
/// beside `get` and `decode` of the same fields. Ours on both sides.
pub fn copying(bench: &mut Bench) {
    let (numbers, texts) = (numbers_of(COUNT), texts_of(COUNT));
    let fields: Vec<Vec<u8>> = (0..COUNT)
        .map(|at| {
            let long = i64::from(numbers[at]) << 20;
            [frames(&numbers[at..=at], &Type::INT4), frames(&texts[at..=at], &Type::TEXT), frames(&[long], &Type::INT8)].concat()
        })
        .collect();
    let rows: Vec<u8> = fields.iter().flat_map(|row| [&[0, 3], row.as_slice()].concat()).collect();
    let stream = [&b"PGCOPY\n\xff\r\n\0\0\0\0\0\0\0\0\0"[..], &rows, &[0xff; 2]].concat();
    let frames = fields.concat();
    bench.row("row of 3 of COPY, beside its get+decode", COUNT, framed(pgv_bench_copy, &stream, AS_LISTS), framed(pgv_bench_copy, &frames, AS_FRAMES));
    bench.row("the same into one list", COUNT, framed(pgv_bench_copy, &stream, AS_ONE_LIST), framed(pgv_bench_copy, &frames, AS_FRAMES));
    bench.row("the same, by reference", COUNT, framed(pgv_bench_copy, &stream, AS_LENT), framed(pgv_bench_copy, &frames, AS_FRAMES));
    bench.row("the same as a tuple", COUNT, framed(pgv_bench_copy, &stream, AS_TUPLES), framed(pgv_bench_copy, &frames, AS_FRAMES));
}

/// Messages. The first three rows are ours on both sides: rows by their columns, and in one pass, beside `get` and
/// `decode` of the same fields without a row, under types that a description has, or that the program has as constants.
pub fn messages(bench: &mut Bench) {
    let (numbers, texts) = (numbers_of(COUNT), texts_of(COUNT));
    let days = many(COUNT, 4, |numbers| numbers.moment().date_naive());
    let bodies: Vec<Vec<u8>> = (0..COUNT).map(|at| row_body(numbers[at], &texts[at], days[at])).collect();
    let bodies = Texts::new(&bodies);
    bench.row("row of 5 columns, beside its get+decode", COUNT, bodies.rows(BY_COLUMNS), bodies.rows(DESCRIBED));
    bench.row("the same in one pass", COUNT, bodies.rows(IN_ONE_PASS), bodies.rows(DESCRIBED));
    bench.row("the same, types as constants", COUNT, bodies.rows(IN_ONE_PASS), bodies.rows(AS_FRAMES));
    bench.row("Bind of 4", COUNT, Texts::new(&texts).bound(), bound(&texts));
}
