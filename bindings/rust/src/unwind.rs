//! Panics. A panic passes a call of this crate if a value's drop or a function that makes a value
//! panics. Then no seat is lost, and the table, the handles and the readers are as after a call
//! that returned. So they may be used after the panic, if this holds of the values: other threads
//! see them (`RefUnwindSafe`), and a call may return one (`UnwindSafe`).
use crate::access::{Handle, Reader, Table};
use std::panic::{RefUnwindSafe, UnwindSafe};

impl<T: UnwindSafe + RefUnwindSafe> UnwindSafe for Table<T> {}
impl<T: UnwindSafe + RefUnwindSafe> RefUnwindSafe for Table<T> {}
impl<T: UnwindSafe + RefUnwindSafe> UnwindSafe for Handle<T> {}
impl<T: UnwindSafe + RefUnwindSafe> RefUnwindSafe for Handle<T> {}
impl<T: UnwindSafe + RefUnwindSafe> UnwindSafe for Reader<T> {}
impl<T: UnwindSafe + RefUnwindSafe> RefUnwindSafe for Reader<T> {}
