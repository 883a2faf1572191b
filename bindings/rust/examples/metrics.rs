//! A service whose numbers a dashboard reads at `/metrics`, and which logs what its retry does.
//!
//! Given an address as its argument, as in `cargo run --example metrics 127.0.0.1:9464`, it serves there until it is stopped. Otherwise
//! it serves on a free port, for one request of its own.
use resil::metrics::Metrics;
use resil::{BulkheadRegistry, Interval, Observer, Retry, ThreadPool};
use std::env;
use std::error::Error;
use std::io::{self, BufRead, BufReader, Read, Write};
use std::net::{Ipv4Addr, SocketAddr, TcpListener, TcpStream};
use std::sync::Arc;
use std::time::Duration;

/// Writes a line for each attempt that failed.
struct Log;

impl Observer for Log {
    fn attempt_failed(&self, retry: &str, attempt: u32, wait: Duration) {
        println!("attempt {attempt} of {retry} failed; the next one is in {wait:?}");
    }
}

struct Service {
    metrics: Arc<Metrics>,
    neighbours: BulkheadRegistry,
    letters: ThreadPool,
}

impl Service {
    fn open() -> Result<Service, Box<dyn Error>> {
        let metrics = Arc::new(Metrics::new());
        Ok(Service {
            neighbours: BulkheadRegistry::new(2).observed(metrics.clone()),
            letters: ThreadPool::builder(1, 2)
                .name("letters")
                .observed(metrics.clone())
                .open()?,
            metrics,
        })
    }

    // What the service does: a price that comes with the second attempt, a call that is refused, and a letter.
    fn work(&self) -> Result<(), Box<dyn Error>> {
        let prices = self.neighbours.bulkhead("prices")?;
        let both: [Arc<dyn Observer>; 2] = [Arc::new(Log), self.metrics.clone()];
        let retry = Retry::new()
            .interval(Interval::fixed(Duration::from_millis(1)))
            .observed("prices", Arc::new(both));
        let mut answers = ["soon", "42"].iter();
        let price = retry.call(|| {
            let answer = prices.call(|| answers.next().map_or("", |text| text));
            answer.unwrap_or_default().parse::<u32>()
        })?;
        assert_eq!(price, 42);
        let permits = [prices.enter()?, prices.enter()?];
        assert!(prices.call(|| 42).is_err());
        drop(permits);
        self.letters.submit(|| "a letter".len())?.wait()?;
        Ok(())
    }

    // Answers one request.
    fn serve(&self, listener: &TcpListener) -> io::Result<()> {
        let (stream, _) = listener.accept()?;
        stream.set_read_timeout(Some(Duration::from_secs(60)))?;
        let mut head = BufReader::new(&stream).lines();
        let first = head.next().unwrap_or(Ok(String::new()))?;
        while !head.next().unwrap_or(Ok(String::new()))?.is_empty() {}
        let (status, text) = match first.split(' ').nth(1) {
            Some("/metrics") => {
                let bulkheads = self.neighbours.bulkheads();
                ("200 OK", self.metrics.text(&bulkheads, &[&self.letters]))
            }
            _ => ("404 Not Found", String::new()),
        };
        let (kind, length) = (Metrics::CONTENT_TYPE, text.len());
        write!(
            &stream,
            "HTTP/1.1 {status}\r\nContent-Type: {kind}\r\nContent-Length: {length}\r\nConnection: close\r\n\r\n{text}"
        )
    }
}

pub fn main() -> Result<(), Box<dyn Error>> {
    let service = Service::open()?;
    service.work()?;
    let given = env::args().nth(1).and_then(|word| word.parse().ok());
    let address = given.unwrap_or(SocketAddr::from((Ipv4Addr::LOCALHOST, 0)));
    let listener = TcpListener::bind(address)?;
    while given.is_some() {
        // A caller that has gone away is no failure of the service.
        let _gone = service.serve(&listener);
    }
    let mut stream = TcpStream::connect(listener.local_addr()?)?;
    write!(stream, "GET /metrics HTTP/1.1\r\nHost: localhost\r\n\r\n")?;
    service.serve(&listener)?;
    let mut page = String::new();
    stream.read_to_string(&mut page)?;
    for line in [
        "resilience4j_bulkhead_max_allowed_concurrent_calls{name=\"prices\"} 2",
        "resilience4j_bulkhead_core_thread_pool_size{name=\"letters\"} 1",
        "resilience4j_retry_calls_total{kind=\"successful_with_retry\",name=\"prices\"} 1",
        "resil_bulkhead_calls_total{kind=\"refused\",name=\"prices\"} 1",
    ] {
        assert!(page.lines().any(|shown| shown == line), "{page}");
        println!("{line}");
    }
    Ok(())
}
