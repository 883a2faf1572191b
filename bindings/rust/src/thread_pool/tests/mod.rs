//! Tests of what only a pool's inside can cause or see.
mod doors;
mod ends;
mod inbox;
mod joins;
mod loads;
mod starts;
