//! The reason why a log of calls in flight is not legal.
use crate::core;
use crate::log::File;

/// A point in time of a flight. Events are named by their lines, from 1.
#[derive(Clone, Copy, Debug, PartialEq, Eq)]
pub enum Point {
    /// The event of this line.
    Event(usize),
    /// An access of the member, or of the look, that a line answers.
    Access {
        /// The line of the answer.
        answer: usize,
        /// The number of the access among those of its member, from 0.
        access: usize,
    },
    /// The installation of the file; the end of the flight if it never is installed.
    Put(File),
    /// The last time at which a file is at a slot; the end of the flight if the file stays there,
    /// and its start if it is never there.
    Gone {
        /// The file.
        file: File,
        /// The slot.
        slot: u32,
    },
}

/// Defines the rules, in the order of their numbers from 1.
macro_rules! rules {
    ($($(#[$words:meta])* $name:ident,)*) => {
        /// A rule of the steps of a reason.
        #[derive(Clone, Copy, Debug, PartialEq, Eq)]
        #[non_exhaustive]
        pub enum Rule { $($(#[$words])* $name),* }

        const RULES: &[Rule] = &[$(Rule::$name),*];
    };
}

rules! {
    /// An event comes before a later event.
    Events,
    /// A call comes before its accesses.
    Begins,
    /// An access comes before the answer of its member.
    Ends,
    /// A call comes before it installs a file.
    Calls,
    /// An answered member has installed its file.
    Installs,
    /// The file that an answered member installed was then at its slot.
    Places,
    /// A file was installed before a look found it.
    Follows,
    /// A look found a file before it left its slot.
    Finds,
    /// A file left its slot before it was closed.
    Closes,
    /// A file that was installed and not closed when all was settled was still at its slot.
    Settles,
    /// An access leaves a slot without a file that was installed before: the file left it by then.
    Empties,
    /// An access leaves a slot without a file that is there later: the file was installed after it.
    Precedes,
    /// A file left its slot when another one was installed there.
    Displaces,
    /// A file that is at a slot after another one was installed there was installed after it.
    Outlives,
    /// The orders of two steps make one.
    Then,
    /// A contradiction: a look found a file that was closed before.
    FindsClosed,
    /// A contradiction: a file was closed twice.
    ClosesTwice,
    /// A contradiction: a file was closed while a look held it.
    ClosesHeld,
    /// A contradiction: a request can't have its answer, whatever it finds.
    CantAnswer,
    /// An access finds a file at a slot, and each other file isn't there, or has other bytes than
    /// the read answered. If no file may be there, it is a contradiction.
    Holds,
    /// Accesses of different calls aren't at the same time.
    Differs,
    /// A file is at its slot until an event, since no call before the event took it.
    Stays,
    /// A file was at its slot until the only access that may have taken it.
    Takes,
    /// A file was gone after the only access that may have taken it.
    TakenBy,
    /// A file that was installed was then at the only slot at which a request may install it.
    Lands,
    /// A file that was installed was never at a slot at which no request may install it.
    Misses,
    /// A file was installed before it was closed.
    Existed,
    /// The file of a member that failed is never installed.
    Fails,
    /// A contradiction: a file was installed that no call before may install.
    Unknown,
    /// A contradiction: a member is canceled, or isn't, against the answer of the member before it.
    Cut,
    /// An order is supposed: the steps from here on speak of flights that keep it.
    Suppose,
    /// The step before has a point before itself, so the order that was supposed is wrong, and this
    /// one is the opposite one. The numbers of the steps since then are numbers of it, too.
    Otherwise,
}

/// A step of a reason: a point comes before another one in each flight. Which of `first`, `second`,
/// `access`, `premise`, `other` and `slot` a rule uses, `include/yachtjudge.h` says; the others say
/// nothing.
#[derive(Clone, Copy, Debug, PartialEq, Eq)]
pub struct Step {
    /// The rule.
    pub rule: Rule,
    /// The line of the first event of the rule: mostly a call.
    pub first: usize,
    /// The line of the second event of the rule: mostly the answer of the call.
    pub second: usize,
    /// The number of the access among those of its member, from 0.
    pub access: usize,
    /// The number of an earlier step that the rule follows from, from 0.
    pub premise: usize,
    /// The number of another earlier step, from 0.
    pub other: usize,
    /// The slot at which an access finds a file, from 0.
    pub slot: u32,
    /// The earlier point.
    pub before: Point,
    /// The later point.
    pub after: Point,
    /// Whether the points differ in time.
    pub is_strict: bool,
}

// Returns what a point of C says.
fn point_of(it: core::Point) -> Point {
    let file = File { call: it.by_call, member: it.by_member, entry: it.by_entry, file: it.file };
    match it.kind {
        core::POINT_EVENT => Point::Event(it.at as usize),
        core::POINT_ACCESS => Point::Access { answer: it.at as usize, access: it.access as usize },
        core::POINT_PUT => Point::Put(file),
        _ => Point::Gone { file, slot: it.slot },
    }
}

impl Step {
    /// Returns what a step of C says.
    pub(crate) fn of(it: &core::Step) -> Step {
        Step {
            rule: RULES[it.rule as usize - 1],
            first: it.first as usize,
            second: it.second as usize,
            access: it.access as usize,
            premise: it.premise as usize,
            other: it.other as usize,
            slot: it.slot as u32,
            before: point_of(it.from),
            after: point_of(it.to),
            is_strict: it.is_strict == 1,
        }
    }
}
