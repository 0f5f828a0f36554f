//! The memory of rows that are dropped before their end, in a process of its own.

use zaxbriar::Decoder;

/// Returns how many kilobytes of memory this process has.
fn memory() -> u64 {
    let status = std::fs::read_to_string("/proc/self/status").unwrap();
    let line = status.lines().find(|it| it.starts_with("VmRSS:")).unwrap();
    line.split_whitespace().nth(1).unwrap().parse().unwrap()
}

#[test]
fn rows_that_are_dropped_keep_no_memory() -> Result<(), Box<dyn std::error::Error>> {
    let jpeg = std::fs::read("image/tests/colour.jpg")?;
    let before = memory();
    for _ in 0..2000 {
        let mut decoder = Decoder::new(&jpeg[..]);
        assert!(decoder.rows()?.next().is_some());
    }
    assert!(memory() < before + 20_000);
    Ok(())
}
