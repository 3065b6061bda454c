//! What bench/cases.rs and bench/lines.rs use of conversions, of the crate postgres-types itself, with chrono, uuid,
//! serde_json, bit-vec and eui48. Frames are written as its client crates write them.
#![allow(dead_code, unused_imports, reason = "each program has a part of them")]

use std::error::Error;

pub use bytes::BytesMut as Buf;
pub use postgres_types::{FromSql, IsNull, ToSql};

pub type Fault = Box<dyn Error + Sync + Send>;

pub mod types {
    pub use postgres_types::{Field, Kind, Type};

    /// A user-defined type in the schema `public`.
    pub fn user_type(name: &str, oid: u32, kind: Kind) -> Type {
        Type::new(name.to_owned(), oid, kind, "public".to_owned())
    }
}

#[path = "user_types.rs"]
pub mod user_types;

pub mod dates {
    use chrono::{TimeZone, Utc};
    use std::time::Duration;

    pub use chrono::{NaiveDate as Date, NaiveDateTime as DateTime, NaiveTime as Time};
    pub use postgres_types::{Date as DateInf, Timestamp as TimestampInf};
    pub use std::time::SystemTime as UnixTime;

    pub type Timestamp = chrono::DateTime<Utc>;

    pub const EPOCH_SECS: i64 = 946_684_800;

    pub fn date(year: i16, month: i8, day: i8) -> Date {
        Date::from_ymd_opt(year.into(), month as u32, day as u32).expect("a date")
    }

    pub fn time(hour: i8, minute: i8, second: i8, nanos: i32) -> Time {
        Time::from_hms_nano_opt(hour as u32, minute as u32, second as u32, nanos as u32).expect("a time")
    }

    pub fn date_time(date: Date, time: Time) -> DateTime {
        date.and_time(time)
    }

    /// The instant of a second and the nanoseconds after it.
    pub fn timestamp(second: i64, nanosecond: i32) -> Timestamp {
        Utc.timestamp_opt(second, nanosecond as u32).single().expect("an instant")
    }

    pub fn unix_time(secs: i64, nanos: u32) -> UnixTime {
        let whole = Duration::from_secs(secs.unsigned_abs());
        let second = if secs < 0 { UnixTime::UNIX_EPOCH - whole } else { UnixTime::UNIX_EPOCH + whole };
        second + Duration::from_nanos(nanos.into())
    }
}

pub mod json {
    pub use serde_json::{Number, Value};
}

pub mod maps {
    use std::collections::HashMap;

    pub type Map = HashMap<String, Option<String>>;
}

pub mod numbers {
    pub use eui48::MacAddress;
    pub use postgres_types::PgLsn;
    pub use uuid::Uuid;
}

pub mod texts {
    pub use bit_vec::BitVec;
}

pub mod user_values {
    use postgres_types::{FromSql, ToSql};

    #[derive(Debug, FromSql, ToSql)]
    pub struct InventoryItem {
        pub name: String,
        pub supplier_id: i32,
        pub price: Option<i64>,
    }

    #[derive(Debug, FromSql, ToSql)]
    pub enum Mood {
        Sad,
        Ok,
        Happy,
    }

    #[derive(Debug, FromSql, ToSql)]
    pub struct SessionId(pub Vec<u8>);
}

pub mod frames {
    use super::types::Type;
    use super::{Buf, Fault, FromSql, IsNull, ToSql};
    use bytes::BufMut;
    use fallible_iterator::FallibleIterator;
    use postgres_protocol::types::{hstore_from_sql, hstore_to_sql};
    use std::collections::BTreeMap;

    pub use postgres_types::private::read_value;

    pub fn read_values<'a, T: FromSql<'a>>(ty: &Type, count: usize, buf: &mut &'a [u8]) -> Result<Vec<T>, Fault> {
        let mut values = Vec::with_capacity(count);
        for _ in 0..count {
            values.push(read_value(ty, buf)?);
        }
        Ok(values)
    }

    /// Appends the frame of what is written, as `write_nullable` of postgres-protocol, which is private.
    pub fn frame_to_sql(out: &mut Buf, write: impl FnOnce(&mut Buf) -> Result<IsNull, Fault>) -> Result<IsNull, Fault> {
        let base = out.len();
        out.put_i32(0);
        let is_null = write(out)?;
        let size = match is_null {
            IsNull::No => i32::try_from(out.len() - base - 4)?,
            IsNull::Yes => -1,
        };
        out[base..base + 4].copy_from_slice(&size.to_be_bytes());
        Ok(is_null)
    }

    /// Appends the frames of the parameters.
    pub fn params_to_sql(params: &[Box<dyn ToSql>], types: &[Type], out: &mut Buf) -> Result<(), (usize, Fault)> {
        for (place, (param, ty)) in params.iter().zip(types).enumerate() {
            frame_to_sql(out, |out| param.to_sql_checked(ty, out)).map_err(|fault| (place, fault))?;
        }
        Ok(())
    }

    /// Reads the cell, and appends the cell of the value.
    pub fn rewrite<'a, T: FromSql<'a> + ToSql>(
        ty: &Type,
        raw: Option<&'a [u8]>,
        out: &mut Buf,
    ) -> Result<IsNull, Fault> {
        if !<T as FromSql>::accepts(ty) {
            return Err("the type is not accepted".into());
        }
        T::from_sql_nullable(ty, raw)?.to_sql(ty, out)
    }

    /// The frames, of which a map's one has its entries in the order of their keys.
    pub fn in_order(ty: &Type, frames: &[u8]) -> Buf {
        let mut out = Buf::new();
        if ty.name() == "hstore" {
            let entries: BTreeMap<_, _> = hstore_from_sql(&frames[4..]).and_then(|it| it.collect()).expect("a map");
            out.put_slice(&frames[..4]);
            hstore_to_sql(entries, &mut out).expect("a map");
        } else {
            out.put_slice(frames);
        }
        out
    }
}
