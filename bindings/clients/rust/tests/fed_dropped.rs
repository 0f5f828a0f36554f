//! The memory of streams that were fed and are dropped, in a process of its own.

use zaxbriar::{FedDecoder, FedSettings};

/// Returns how many kilobytes of memory this process has.
fn memory() -> u64 {
    let status = std::fs::read_to_string("/proc/self/status").unwrap();
    let line = status.lines().find(|it| it.starts_with("VmRSS:")).unwrap();
    line.split_whitespace().nth(1).unwrap().parse().unwrap()
}

#[test]
fn a_stream_that_is_dropped_keeps_no_memory() -> Result<(), Box<dyn std::error::Error>> {
    let jpeg = std::fs::read("image/tests/colour.jpg")?;
    let before = memory();
    for _ in 0..2000 {
        let mut decoder = FedDecoder::new(&FedSettings::default())?;
        decoder.feed(&vec![0xFF; 20_000])?;
        let mut decoder = FedDecoder::new(&FedSettings::default())?;
        decoder.feed(&jpeg)?;
        decoder.show()?;
    }
    assert!(memory() < before + 20_000);
    Ok(())
}
