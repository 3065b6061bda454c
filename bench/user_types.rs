//! User-defined types.

use super::types::{Field, Kind, Type, user_type};

pub fn ltree_type() -> Type {
    user_type("ltree", 100_001, Kind::Simple)
}

pub fn hstore_type() -> Type {
    user_type("hstore", 100_002, Kind::Simple)
}

/// Lists of lists of numbers.
pub fn lists_type() -> Type {
    user_type("lists", 100_000, Kind::Array(Type::INT4_ARRAY))
}

pub fn item_type() -> Type {
    let field = |name: &str, ty| Field::new(name.to_owned(), ty);
    let fields = vec![field("name", Type::TEXT), field("supplier_id", Type::INT4), field("price", Type::INT8)];
    user_type("InventoryItem", 100_003, Kind::Composite(fields))
}

pub fn item_array_type() -> Type {
    user_type("_InventoryItem", 100_004, Kind::Array(item_type()))
}

pub fn mood_type() -> Type {
    let labels = ["Sad", "Ok", "Happy"].map(str::to_owned);
    user_type("Mood", 100_005, Kind::Enum(labels.to_vec()))
}

pub fn session_type() -> Type {
    user_type("SessionId", 100_006, Kind::Domain(Type::BYTEA))
}
