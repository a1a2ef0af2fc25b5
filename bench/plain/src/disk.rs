//! Makes a copy of a folder's log by the writes and syncs that made the log. This shows how much of a run's time the disk alone takes.
use std::fs::{self, File};
use std::io;
use std::os::unix::fs::FileExt;

const HEAD: usize = 16;

fn number(bytes: &[u8]) -> usize {
    u64::from_be_bytes(bytes.try_into().unwrap()) as usize
}

/// Reads the log at one path, and writes the file at the other path as `s3a` wrote the log: first the whole base, then each record after
/// a closed gate, which is opened last. Prints the number of records.
pub fn copy_log(from: &str, to: &str) -> io::Result<()> {
    let log = fs::read(from)?;
    let mut gate = HEAD + number(&log[8..HEAD]);
    let file = File::create(to)?;
    file.write_all_at(&log[..gate], 0)?;
    file.write_all_at(&[0], gate as u64)?;
    file.sync_data()?;
    let mut records = 0;
    while log[gate] == 1 {
        let next = gate + 9 + number(&log[gate + 1..gate + 9]);
        let mut record = log[gate + 1..next].to_vec();
        record.push(0);
        file.write_all_at(&record, gate as u64 + 1)?;
        file.sync_data()?;
        file.write_all_at(&[1], gate as u64)?;
        file.sync_data()?;
        gate = next;
        records += 1;
    }
    println!("records {records}");
    Ok(())
}
