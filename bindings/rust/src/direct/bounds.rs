//! What the compiler must refuse of the types of this module, and what it must accept.
//!
//! | type | `Send` if | `Sync` if | `Clone` | in `T` | unwind safe if |
//! |---|---|---|---|---|---|
//! | `Slots<T>` | `T: Send` | never | no | covariant | `T: UnwindSafe`, and never through `&` |
//! | `Releases` | always | always | yes | | always |
//! | `User` | always | always | no | | always |
//! | `Key`, `Next`, `Phase`, `PhaseName`, `Member`, errors | always | always | yes | | always |
//! | `Lives<T, R>` | `T` and `R` are | never | no | covariant | never: an `io::Error` isn't |
//! | `After<T>`, `Adopted<T>` | `T: Send` | `T: Sync` | `T: Clone` | covariant | `T: UnwindSafe` |
//! | `Event<T>` | `T: Send` | `T: Sync` | `T: Clone` | covariant | `T: UnwindSafe` |
//!
//! Each pair of programs below differs by one token ([`pair`]). These must compile: one thread has
//! the slots, so a value that threads may not share does no harm; and values have a shorter
//! lifetime.
//!
//! ```
//! use std::panic::{RefUnwindSafe, UnwindSafe};
//! use yachtbanyan::direct::*;
//! fn plain<T: Send + Sync + UnwindSafe + RefUnwindSafe>() {}
//! plain::<(Key, Next, Phase, PhaseName, Member, After<u8>, Adopted<u8>)>();
//! plain::<(OpenError, ReserveError, AdoptError, OtherSlots, Refusal)>();
//! plain::<(Releases, User, Event<u8>)>();
//! fn send<T: Send>() {}
//! send::<Slots<std::cell::Cell<u8>>>();
//! fn with<'a>(it: Slots<&'static str>) -> Slots<&'a str> { it }
//! fn lives<'a, R: Ring>(it: Lives<&'static str, R>) -> Lives<&'a str, R> { it }
//! ```
include!("../pairs.rs");

bounds! {
    "use {std::{io, panic::*}, yachtbanyan::direct::*};
type Staying = std::rc::Rc<u8>;
struct On<T>(T);
impl<T> Ring for On<T> {
    type Request = u8;
    fn push(&mut self, _: Entry<u8>) -> io::Result<()> { Ok(()) }
    fn make_room(&mut self, _: usize) -> io::Result<bool> { Ok(true) }
    fn completion(&mut self) -> Option<Completion> { None }
    fn wait(&mut self) -> io::Result<()> { Ok(()) }
}
type Of<T> = Lives<T, On<u8>>;
type Over<R> = Lives<u8, On<R>>;"
    Send: Slots<{Staying u8}>;
    {Sync Send}: Slots<u8>;
    {Clone Send}: Slots<u8>;
    // a user is counted once
    Clone: {User Releases};
    Send: After<{Staying u8}>;
    Clone: After<{User Key}>;
    Send: Adopted<{Staying u8}>;
    Clone: Adopted<{User Key}>;
    Send: Event<{Staying u8}>;
    Clone: Event<{User Key}>;
    Send: Of<{Staying u8}>;
    Send: Over<{Staying u8}>;
    {Sync Send}: Of<u8>;
    {Clone Send}: Of<u8>;
    {UnwindSafe Send}: Of<u8>;
    {RefUnwindSafe Send}: Of<u8>;
    // the completions of a chain come in any order
    {PartialOrd PartialEq}: Member;
}

// any thread wakes the ring's
pair!("compile_fail,E0277" ("use std::{rc::Rc, sync::Arc};
let woken = ") {Rc Arc} ("::new(0);
let slots = yachtbanyan::direct::Slots::<u8>::new(1).unwrap();
slots.releases(move || drop(woken.clone()));"));
// what wakes it may be called after every borrow has ended
pair!("compile_fail,E0597" ("let woken = String::new();
let at = woken.") {as_str clone} ("();
let slots = yachtbanyan::direct::Slots::<u8>::new(1).unwrap();
slots.releases(move || drop(at.len()));"));
// values have no longer lifetime
pair!("compile_fail" ("use yachtbanyan::direct::Slots;
fn with<'a>(it: Slots<&'a str>) -> Slots<&") {'static 'a} (" str> { it }"));
// a value stays where it is while it is borrowed
pair!("compile_fail,E0502" ("let mut slots = yachtbanyan::direct::Slots::<u8>::new(1).unwrap();
let key = slots.reserve().unwrap();
let value = slots.") {get phase} ("(key);
slots.opened(key, 0).unwrap();
println!(\"{value:?}\");"));
// a walk goes by the name of a phase, and not by its counts
pair!("compile_fail,E0308" ("let slots = yachtbanyan::direct::Slots::<u8>::new(1).unwrap();
slots.key_in(yachtbanyan::direct::") {Phase PhaseName} ("::Closing, 0);"));
// no member of a chain follows its close
pair!("compile_fail,E0599" ("let mut slots = yachtbanyan::direct::Slots::<u8>::new(1).unwrap();
let key = slots.reserve().unwrap();
let chain = slots.chain(key, |_| {}).unwrap();
chain.") {close request} ("(|_| {}).close(|_| {});"));
// the slots count the chain before anything else is done with them
pair!("compile_fail,E0502" ("let mut slots = yachtbanyan::direct::Slots::<u8>::new(1).unwrap();
let key = slots.reserve().unwrap();
let chain = slots.chain(key, |_| {}).unwrap();
println!(\"{:?}\", ") {slots key} (");
chain.close(|_| {});"));
// a queue is that of slots
pair!("compile_fail,E0624" ("let slots = yachtbanyan::direct::Slots::<u8>::new(1).unwrap();
let releases = slots.releases(|| {});
drop(") {releases slots} (".collect(&releases));"));
// a slot that is to be closed isn't forgotten
pair!("compile_fail" ("#![deny(unused_must_use)]
use yachtbanyan::direct::{Key, Refusal, Slots};
fn finish(slots: &mut Slots, key: Key) -> Result<(), Refusal> {
    slots.") {finish hold} ("(key)?;
    Ok(())
}"));
