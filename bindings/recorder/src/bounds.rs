//! What the compiler must refuse of the recorder's types, and what it must accept. Each pair of
//! programs below differs by one token ([`pair`]).
//!
//! | type | `Send` | `Sync` | it doesn't outlive |
//! |---|---|---|---|
//! | `Value`, `Log`, `Plan`, `Cut`, `Slots`, `Keyed`, `CTable`, `Fault` | yes | yes | |
//! | `SlotsHandle`, `KeyedHandle` | yes | no | its table; `KeyedHandle` keeps it |
//! | `CHandle` | no | no | its table |
//! | `CGuard` | no | no | its handle |
//!
//! ```
//! use recorder::library::{Keyed, KeyedHandle};
//! use recorder::tables::{Fault, Slots, SlotsHandle};
//! use recorder::c::CTable;
//! use recorder::{Cut, Log, Plan, Value};
//!
//! fn shared<T: Send + Sync>() {}
//! fn send<T: Send>() {}
//! shared::<(Value, Log, Plan, Cut, Slots, Keyed, CTable<true>, Fault)>();
//! send::<(SlotsHandle<'static>, KeyedHandle)>();
//! ```
include!("../../rust/src/pairs.rs");

bounds! {
    "use recorder::{c::*, library::*, tables::*};"
    // one thread at a time uses a handle
    {Sync Send}: SlotsHandle<'static>;
    {Sync Send}: KeyedHandle;
    // handles and guards of the C library's table stay on their threads
    {Send Sized}: CHandle<'static, true>;
    {Sync Sized}: CHandle<'static, true>;
    {Send Sized}: CGuard<'static>;
    {Sync Sized}: CGuard<'static>;
}

// a handle doesn't outlive its table, nor a guard its handle
pair!("compile_fail,E0505" ("use recorder::{c::CTable, Table};
let (it, other) = (CTable::<false>::new(1, 1), CTable::<false>::new(1, 1));
let handle = it.handle();
drop(") {it other} (");\ndrop(handle);"));
pair!("compile_fail,E0505" ("use recorder::{tables::*, Table};
let (it, other) = (Slots::new(1, Fault::None), Slots::new(1, Fault::None));
let handle = it.handle();
drop(") {it other} (");\ndrop(handle);"));
pair!("compile_fail,E0505" ("use recorder::{c::CTable, Handle, Table};
let table = CTable::<false>::new(1, 2);
let (it, other) = (table.handle(), table.handle());
let guard = it.get(0);
drop(") {it other} (");\ndrop(guard);"));
