//! The same work by postgres-types, with the lengths in front as tokio-postgres writes and reads them, and messages by
//! postgres-protocol.
use crate::turns::Work;
use bytes::{BufMut, BytesMut};
use chrono::{DateTime, Datelike, NaiveDate, NaiveDateTime, NaiveTime, Timelike, Utc};
use postgres_protocol::message::frontend;
use postgres_types::{to_sql_checked, FromSql, IsNull, ToSql, Type};
use std::collections::HashMap;
use std::error::Error;
use std::hint::black_box;

/// What is counted of a value that was read, as `crates/pgv_bench/src/seen.rt` counts it. The memory of a value is
/// shown to the outside, since the compiler could leave the allocation out else.
pub trait Seen {
    fn seen(&self) -> usize;
}

fn shown<T>(list: &[T]) -> usize {
    black_box(list.as_ptr());
    list.len()
}

macro_rules! seen { ($($name:ty: $value:ident => $seen:expr;)*) => { $(impl Seen for $name { fn seen(&self) -> usize { let $value = self; $seen } })* } }
seen! {
    i32: value => *value as u32 as usize;
    i64: value => *value as u64 as usize;
    bool: value => usize::from(*value);
    uuid::Uuid: value => value.as_bytes()[0] as usize;
    String: value => shown(value.as_bytes());
    NaiveDate: value => value.day() as usize;
    NaiveTime: value => value.second() as usize;
    NaiveDateTime: value => value.second() as usize;
    DateTime<Utc>: value => value.timestamp() as u64 as usize;
    bit_vec::BitVec: value => { shown(value.storage()); value.len() };
    HashMap<String, Option<String>>: value => black_box(value).len();
    Octets: value => shown(&value.0);
}

impl<T: Seen> Seen for Option<T> {
    fn seen(&self) -> usize {
        self.as_ref().map_or(0, Seen::seen)
    }
}

impl<T: Seen> Seen for Vec<T> {
    fn seen(&self) -> usize {
        shown(self);
        self.last().map_or(0, |last| self.len().wrapping_add(last.seen()))
    }
}

/// A `bytea`: a list of `u8` would be counted as any list is.
#[derive(Clone, Debug)]
pub struct Octets(pub Vec<u8>);

impl<'a> FromSql<'a> for Octets {
    fn from_sql(ty: &Type, raw: &'a [u8]) -> Result<Self, Box<dyn Error + Sync + Send>> {
        Vec::<u8>::from_sql(ty, raw).map(Octets)
    }

    fn accepts(ty: &Type) -> bool {
        <Vec<u8> as FromSql>::accepts(ty)
    }
}

impl ToSql for Octets {
    fn to_sql(&self, ty: &Type, out: &mut BytesMut) -> Result<IsNull, Box<dyn Error + Sync + Send>> {
        self.0.to_sql(ty, out)
    }

    fn accepts(ty: &Type) -> bool {
        <Vec<u8> as ToSql>::accepts(ty)
    }

    to_sql_checked!();
}

fn write_frame<T: ToSql>(value: &T, ty: &Type, out: &mut BytesMut) {
    let start = out.len();
    out.put_i32(0);
    let length = match value.to_sql(ty, out).expect("a value that has a frame") {
        IsNull::Yes => -1,
        IsNull::No => i32::try_from(out.len() - start - 4).expect("a length of 31 bits"),
    };
    out[start..start + 4].copy_from_slice(&length.to_be_bytes());
}

fn write_all<T: ToSql>(values: &[T], ty: &Type, rounds: u32) -> usize {
    let mut sum = 0usize;
    for _ in 0..rounds {
        let mut out = BytesMut::new();
        for value in black_box(values) {
            write_frame(value, ty, &mut out);
        }
        sum = sum.wrapping_add(black_box(&out).len());
    }
    sum
}

/// The frames of the values.
pub fn frames<T: ToSql>(values: &[T], ty: &Type) -> Vec<u8> {
    let mut out = BytesMut::new();
    for value in values {
        write_frame(value, ty, &mut out);
    }
    out.to_vec()
}

fn part<'a>(rest: &mut &'a [u8]) -> &'a [u8] {
    let (length, bytes) = rest.split_at(4);
    let length = i32::from_be_bytes(length.try_into().expect("four bytes"));
    let (part, rest_of_bytes) = bytes.split_at(length as usize);
    *rest = rest_of_bytes;
    part
}

fn read<'a, T: FromSql<'a>>(rest: &mut &'a [u8], ty: &Type) -> T {
    T::from_sql(ty, part(rest)).expect("a value that was written")
}

/// Encodes values, copied anew as our exports copy them.
pub fn written<T: Clone + ToSql>(values: &[T], ty: Type) -> Work<'_> {
    Box::new(move |rounds| write_all(&black_box(values).to_vec(), &ty, rounds))
}

/// Encodes the values of frames, read anew as our exports read them.
pub fn written_again<'a, T: for<'b> FromSql<'b> + ToSql + 'a>(frames: &'a [u8], ty: Type) -> Work<'a> {
    Box::new(move |rounds| {
        let (mut rest, mut values) = (black_box(frames), Vec::new());
        while !rest.is_empty() {
            values.push(read::<T>(&mut rest, &ty));
        }
        write_all(&values, &ty, rounds)
    })
}

/// Decodes the values of frames.
pub fn decoded<'a, T: for<'b> FromSql<'b> + Seen + 'a>(frames: &'a [u8], ty: Type) -> Work<'a> {
    Box::new(move |rounds| {
        let mut sum = 0usize;
        for _ in 0..rounds {
            let mut rest = black_box(frames);
            while !rest.is_empty() {
                sum = sum.wrapping_add(read::<T>(&mut rest, &ty).seen());
            }
        }
        sum
    })
}

fn bind(name: &String) -> usize {
    let values: [(&(dyn ToSql + Sync), Type); 4] = [(&7i32, Type::INT4), (name, Type::TEXT), (&true, Type::BOOL), (&9i64, Type::INT8)];
    let mut out = BytesMut::new();
    let write = |(value, ty): (&(dyn ToSql + Sync), Type), out: &mut BytesMut| {
        value.to_sql_checked(&ty, out).map(|null| match null {
            IsNull::Yes => postgres_protocol::IsNull::Yes,
            IsNull::No => postgres_protocol::IsNull::No,
        })
    };
    assert!(frontend::bind("", "", [1], values, write, [1], &mut out).is_ok());
    black_box(&out).len()
}

/// Writes the Bind of a number, each text, a truth value and a long number, all in binary.
pub fn bound(names: &[String]) -> Work<'_> {
    Box::new(move |rounds| {
        let names = black_box(names).to_vec();
        let mut sum = 0usize;
        for _ in 0..rounds {
            for name in black_box(&names) {
                sum = sum.wrapping_add(bind(name));
            }
        }
        sum
    })
}
