//! Runs the examples.
#[path = "../examples/statuses.rs"]
mod statuses;
#[path = "../examples/ten_calls.rs"]
mod ten_calls;

#[test]
fn each_runs() -> Result<(), Box<dyn std::error::Error>> {
    statuses::main()?;
    ten_calls::main()
}
