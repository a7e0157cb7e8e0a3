//! Tests of what only a race reaches: over the stand-in, whose steps they see, calls within calls,
//! and the orders of threads.
mod answers;
mod balance;
#[cfg(yachtbanyan_stand_in)]
mod numbers;
#[cfg(yachtbanyan_stand_in)]
mod orders;
#[cfg(yachtbanyan_stand_in)]
mod steps;
