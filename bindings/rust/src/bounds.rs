//! What the compiler must refuse of the crate's types, and what it must accept.
//!
//! | type | `Send` if | `Sync` if | `Clone` | in `T` | in its lifetime | unwind safe if |
//! |---|---|---|---|---|---|---|
//! | `Table<T>` | `T: Send + Sync` | `T: Send + Sync` | yes | invariant | | `T` is, in both ways |
//! | `Handle<T>` | `T: Send + Sync` | never | no | invariant | | `T` is, in both ways |
//! | `Reader<T>` | `T: Send + Sync` | never | no | invariant | | `T` is, in both ways |
//! | `Guard<'r, T>` | never | `T: Sync` | no | invariant | covariant | `T` is, in both ways |
//! | `OwnedGuard<T>` | `T: Send + Sync` | `T: Sync` | no | invariant | | `T` is, in both ways |
//! | `Part<G, U>` | `G: Send, U: Sync` | `U: Sync` | no | covariant (`U`) | as `G` | as `&U`, `G` |
//! | `Cached<'r, T>` | never | never | no | invariant | covariant | `T` is, in both ways |
//! | `OwnedCached<T>` | `T: Send + Sync` | never | no | invariant | | `T` is, in both ways |
//! | `Iter<'r, T>` | never | never | no | invariant | covariant | `T` is, in both ways |
//! | `Old<T>`, `Refused<T>` | `T: Send` | `T: Sync` | as `T` | covariant | | as `T` |
//! | `Key`, `Options`, errors | always | always | yes | | | always |
//!
//! "In both ways" is `T: UnwindSafe + RefUnwindSafe`, and then the type is both too. No guard gives
//! a `&mut T`. The drop of a table, a handle, a reader, a guard or a cached slot may drop values,
//! so it uses what they borrow (drop check). Each type is `Unpin`.
//!
//! Each pair of programs below differs by one token ([`pair`]).
//!
//! Keys, options and errors are plain numbers, and each type may be moved:
//!
//! ```
//! use std::panic::{RefUnwindSafe, UnwindSafe};
//! use yachtbanyan::{GetError, Key, NoSeat, NoSlot, OpenError, Options, Reason, RemoveError};
//! use yachtbanyan::{Cached, Guard, Handle, Iter, OwnedCached, OwnedGuard, Reader, Table};
//! fn plain<T: Copy + Send + Sync + UnwindSafe + RefUnwindSafe + Unpin + 'static>() {}
//! fn error<T: std::error::Error>() {}
//! fn moves<T: Unpin>() {}
//! type Pinned = std::marker::PhantomPinned;
//! plain::<(Key, Options, (GetError, NoSeat, NoSlot), (OpenError, Reason, RemoveError))>();
//! error::<yachtbanyan::Refused<Pinned>>();
//! moves::<(Table<Pinned>, Handle<Pinned>, Reader<Pinned>, OwnedGuard<Pinned>)>();
//! moves::<(Guard<'static, Pinned>, Iter<'static, Pinned>)>();
//! moves::<(Cached<'static, Pinned>, OwnedCached<Pinned>)>();
//! ```
include!("pairs.rs");

// a short reference that is given out as a static one
pair!("compile_fail,E0597" (r#"
let table = yachtbanyan::Table::<&'static str>::with_slots(1).unwrap();
{
    let text = String::from("freed soon");
    let short = table.clone();
    short.replace_at(0, text."#) {as_str leak} (r#"()).unwrap();
}
let kept: &'static str = *table.get_owned_at(0).unwrap();
assert_eq!(kept, "freed soon");"#));

bounds! {
    "use std::{cell::Cell, ops::DerefMut, panic::*};
use yachtbanyan::*;
type Unshared = Cell<u8>;
type Staying = std::sync::MutexGuard<'static, u8>;
type Changing = &'static mut u8;
type Own<U> = Part<OwnedGuard<u8>, U>;"
    // threads share values, and the last user drops them
    Send: Table<{Unshared u8} {Staying u8}>;
    Send: Handle<{Unshared u8} {Staying u8}>;
    Send: Reader<{Unshared u8} {Staying u8}>;
    Send: OwnedGuard<{Unshared u8} {Staying u8}>;
    Send: OwnedCached<{Unshared u8} {Staying u8}>;
    Sync: Table<{Unshared u8} {Staying u8}>;
    // a guard is `Sync` if the value is, also if that isn't `Send`
    Sync: Guard<'static, {Unshared Staying}>;
    Sync: OwnedGuard<{Unshared Staying}>;
    Send: Own<{Unshared Staying}>;
    Sync: Own<{Unshared Staying}>;
    {Send Sync}: Part<Guard<'static, u8>, u8>;
    // one thread at a time has a handle, a reader, a guard, a cached slot or an iterator
    {Sync Send}: Handle<u8>;
    {Sync Send}: Reader<u8>;
    {Send Sync}: Guard<'static, u8>;
    {Sync Send}: OwnedCached<u8>;
    {Send Sized}: Cached<'static, u8>;
    {Sync Sized}: Cached<'static, u8>;
    {Send Sized}: Iter<'static, u8>;
    {Sync Sized}: Iter<'static, u8>;
    Send: Old<{Staying Unshared}>;
    Sync: Old<{Unshared Staying}>;
    Send: Refused<{Staying Unshared}>;
    Sync: Refused<{Unshared Staying}>;
    // a seat has one user, so only the table is `Clone`
    Clone: {Handle Table}<u8>;
    Clone: {Reader Table}<u8>;
    Clone: {OwnedGuard Table}<u8>;
    Clone: {OwnedCached Table}<u8>;
    {Clone Sized}: Cached<'static, u8>;
    {Clone Sync}: Guard<'static, u8>;
    {Clone Sized}: Iter<'static, u8>;
    // a value that others use isn't changed
    DerefMut: {OwnedGuard Box}<u8>;
    {DerefMut Sized}: Guard<'static, u8>;
    // a panic passes only if values may be seen after it
    UnwindSafe: Table<{Unshared u8} {Changing u8}>;
    RefUnwindSafe: Table<{Unshared u8} {Changing u8}>;
    UnwindSafe: Handle<{Unshared u8} {Changing u8}>;
    RefUnwindSafe: Handle<{Unshared u8} {Changing u8}>;
    UnwindSafe: Reader<{Unshared u8} {Changing u8}>;
    RefUnwindSafe: Reader<{Unshared u8} {Changing u8}>;
    UnwindSafe: OwnedGuard<{Unshared u8} {Changing u8}>;
    RefUnwindSafe: OwnedGuard<{Unshared u8} {Changing u8}>;
    UnwindSafe: Guard<'static, {Unshared u8} {Changing u8}>;
    RefUnwindSafe: Guard<'static, {Unshared u8} {Changing u8}>;
    UnwindSafe: OwnedCached<{Unshared u8} {Changing u8}>;
    RefUnwindSafe: OwnedCached<{Unshared u8} {Changing u8}>;
    UnwindSafe: Cached<'static, {Unshared u8} {Changing u8}>;
    RefUnwindSafe: Cached<'static, {Unshared u8} {Changing u8}>;
    UnwindSafe: Own<{Unshared u8}>;
    UnwindSafe: Iter<'static, {Unshared u8} {Changing u8}>;
    RefUnwindSafe: Iter<'static, {Unshared u8} {Changing u8}>;
    UnwindSafe: Old<{Changing Unshared}>;
    RefUnwindSafe: Old<{Unshared Changing}>;
    UnwindSafe: Refused<{Changing Unshared}>;
    RefUnwindSafe: Refused<{Unshared Changing}>;
}

/// Writes the pairs that neither shorten nor lengthen the lifetime of values.
macro_rules! invariant {
    ($($ty:literal, $lives:literal, $life:tt;)*) => { $(
        pair!("compile_fail" ("fn f<", $lives, ">(it: yachtbanyan::", $ty, "&") {$life 'a}
            (" str>) -> yachtbanyan::", $ty, "&'a str> { it }"));
        pair!("compile_fail" ("fn f<", $lives, ">(it: yachtbanyan::", $ty,
            "&'a str>) -> yachtbanyan::", $ty, "&") {$life 'a} (" str> { it }"));
    )* };
}

invariant! {
    "Table<", "'a", 'static;
    "Handle<", "'a", 'static;
    "Reader<", "'a", 'static;
    "OwnedGuard<", "'a", 'static;
    "OwnedCached<", "'a", 'static;
    "Guard<'a, ", "'a, 'b: 'a", 'b;
    "Cached<'a, ", "'a, 'b: 'a", 'b;
    "Iter<'a, ", "'a, 'b: 'a", 'b;
}

pair!("compile_fail,E0308" ("use yachtbanyan::Table;
type Any = for<'a> fn(&'a str);
type Static = fn(&'static str);
fn f(it: Table<Any>) -> Table<") {Static Any} ("> { it }"));

/// Writes the pairs that shorten a lifetime, and never lengthen it.
macro_rules! covariant {
    ($($ty:literal, $end:literal;)*) => { $(
        pair!("compile_fail" ("fn f<'a: ") {'a 'b} (", 'b>(it: yachtbanyan::", $ty, "'a ", $end,
            ") -> yachtbanyan::", $ty, "'b ", $end, " { it }"));
    )* };
}

covariant! {
    "Old<&", "str>";
    "Refused<&", "str>";
    "Guard<", ", u8>";
    "Cached<", ", u8>";
    "Part<yachtbanyan::Guard<", ", u8>, u8>";
    "Iter<", ", u8>";
}

/// Writes pairs over a table whose values are bytes, or are borrowed from a text.
macro_rules! of_table {
    ($($code:literal $of:ident $head:literal {$bad:tt $good:tt} $tail:literal;)*) => { $(
        pair!($code (of_table!(@$of), $head) {$bad $good} ($tail));
    )* };
    (@bytes) => { "let table = yachtbanyan::Table::<u8>::with_slots(1).unwrap();\n" };
    (@guards) => { "let table = yachtbanyan::Table::<u8>::with_slots(1).unwrap();
let key = table.insert(1).unwrap();
let (guard, other) = (table.get_owned(key).unwrap(), table.get_owned(key).unwrap());
let value: &u8 = &guard;\n" };
    (@text) => { "let text = String::from(\"value\");
let table = yachtbanyan::Table::<&str>::with_slots(1).unwrap();
table.insert(text.as_str()).unwrap();\n" };
}

/// Writes the pairs of a guard or an iterator that doesn't outlive its handle or its reader.
macro_rules! lends {
    ($($of:ident $call:literal;)*) => { $(pair!("compile_fail,E0505" (of_table!(@bytes), "let key = table.insert(1).unwrap();
let (it, other) = (table.", stringify!($of), "().unwrap(), table.", stringify!($of), "().unwrap());
let lent = it.", $call, ";\ndrop(") {it other} (");\ndrop(lent);"));)* };
}

lends! {
    handle "get_at(0)"; handle "get(key)"; handle "iter()"; handle "cached(0)"; handle "drain()";
    handle "get_at(0).map(|it| yachtbanyan::Guard::map(it, |it| it))";
    reader "get_at(0)"; reader "get(key)"; reader "iter()"; reader "cached(0)";
}

of_table! {
    // a reference to a value doesn't outlive its guard
    "compile_fail,E0505" guards "drop(" {guard other} ");\nprintln!(\"{value}\");";
    "compile_fail,E0505" bytes "let handle = table.handle().unwrap();
let key = handle.insert(1).unwrap();
let (guard, other) = (handle.get(key).unwrap(), handle.get(key).unwrap());
let value: &u8 = &guard;
drop(" {guard other} ");\nprintln!(\"{value}\");";
    "compile_fail,E0505" guards "" {guard other} ".remove().unwrap();\nprintln!(\"{value}\");";
    // a check uses the guard's seat, which others don't while this thread alone has the guard
    "compile_fail,E0596" bytes "table.insert(1).unwrap();
let it = table.handle().unwrap();
let (mut first, mut second) = (it.get_at(0).unwrap(), it.get_at(0).unwrap());
let (shared, own) = (&first, &mut second);
" {shared own} ".is_current();";
    "compile_fail,E0596" bytes "table.insert(1).unwrap();
let (mut first, mut second) = (table.get_owned_at(0).unwrap(), table.get_owned_at(0).unwrap());
let (shared, own) = (&first, &mut second);
" {shared own} ".is_current();";
    // a value of a cached slot is there until the next look
    "compile_fail,E0499" bytes "let (mut it, mut other) = (table.cached(0).unwrap(), table.cached(0).unwrap());
let value = it.get();
" {it other} ".get();\nprintln!(\"{value:?}\");";
    // what values borrow lives as long as what may drop them
    "compile_fail,E0505" text "drop(" {text table} ");";
    "compile_fail,E0505" text "let it = table.handle().unwrap();
drop(table);
drop(" {text it} ");";
    "compile_fail,E0505" text "let it = table.reader().unwrap();
drop(table);
drop(" {text it} ");";
    "compile_fail,E0505" text "let it = table.get_owned_at(0).unwrap();
drop(table);
drop(" {text it} ");";
    "compile_fail,E0505" text "let it = table.cached(0).unwrap();
drop(table);
drop(" {text it} ");";
}
