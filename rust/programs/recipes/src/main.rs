//! Runs the recipes of README.

#[path = "../id.rs"]
mod id;

use id::{Id, key_of, uuid_of};
use serde::Deserialize;
use serde::de::{IntoDeserializer, value::{Error, StrDeserializer}};
use std::fmt;
use uuid::Uuid;

/// What a format that has texts makes of an id.
struct Shown(Id);

impl fmt::Display for Shown {
    fn fmt(&self, f: &mut fmt::Formatter) -> fmt::Result {
        serde::Serialize::serialize(&self.0, f)
    }
}

fn read(text: &str) -> Result<Id, String> {
    let text: StrDeserializer<Error> = text.into_deserializer();
    Id::deserialize(text).map_err(|error| error.to_string())
}

fn main() {
    for (number, text) in [(0, "0"), (1337, "LZ"), (u128::MAX, "7n42DGM5Tflk9n8mt7Fhc7")] {
        assert_eq!(Shown(Id(number)).to_string(), text);
        assert_eq!(format!("{:>12}", Id(number)), format!("{text:>12}"));
        assert_eq!(read(text), Ok(Id(number)));
        assert_eq!(text.parse(), Ok(Id(number)));
    }
    // An invalid byte, a leading zero, and 2^128.
    for text in ["", "LZ-", "0LZ", "7n42DGM5Tflk9n8mt7Fhc8"] {
        let error = base62::decode_canonical(text).unwrap_err();
        assert_eq!(text.parse::<Id>(), Err(error));
        assert_eq!(read(text), Err(error.to_string()));
    }

    let mut ids: Vec<Uuid> = (0..1000).map(|_| Uuid::new_v4()).collect();
    ids.sort_unstable();
    let keys: Vec<String> = ids.iter().copied().map(key_of).collect();
    assert!(keys.is_sorted());
    for (id, key) in ids.into_iter().zip(keys) {
        assert_eq!((uuid_of(&key), key.len()), (Ok(id), 22));
    }
}
