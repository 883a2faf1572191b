//! A record's memory is allocated when the pool is opened: no event causes a page fault. No other test runs in this process.
#![cfg(target_os = "linux")]
mod common;

use common::{Checked, resident};
use resil::ThreadPool;

/// 100,000 events of 24 bytes, in KiB.
const RECORD: u64 = 2_343;

// An emulator takes memory of its own for the code that it translates, so one pool of several is enough.
#[test]
fn a_record_is_there_at_the_opening() -> Checked {
    let mut pools = Vec::new();
    let mut grown = Vec::new();
    for _ in 0..5 {
        let before = resident()?;
        let pool = ThreadPool::builder(1, 1).record(100_000).open()?;
        let opened = resident()?;
        assert!(opened >= before + RECORD, "{} KiB", opened - before);
        pool.close();
        for _ in 1..100_000 {
            assert!(pool.submit(|| ()).is_err());
        }
        let after = resident()?;
        // Two bytes for each event would be 200 KiB.
        if after < opened + 100 {
            return Ok(());
        }
        grown.push(after - opened);
        pools.push(pool);
    }
    panic!("100,000 events take so many KiB: {grown:?}");
}
