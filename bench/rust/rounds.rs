//! What the programs in Rust share: the lines of standard input, and threads that do the same.
use std::io::{self, BufRead};
use std::thread;

/// The lines of standard input, in words: a name and numbers.
pub fn lines() -> impl Iterator<Item = (String, Vec<usize>)> {
    io::stdin().lock().lines().map(|line| {
        let line = line.expect("standard input is text");
        let mut words = line.split_whitespace();
        let name = words.next().unwrap_or("").to_string();
        let numbers = words.map(|word| word.parse().expect("a number"));
        (name, numbers.collect())
    })
}

/// Has a thread for each of these make so many pairs, and tells that the round is over.
#[allow(dead_code)]
pub fn run_pairs<F: FnMut() + Send>(pairs: usize, threads: Vec<F>) {
    let all = threads.len() * pairs;
    thread::scope(|scope| {
        for mut pair in threads {
            scope.spawn(move || (0..pairs).for_each(|_| pair()));
        }
    });
    println!("permits: {all} pairs");
}
