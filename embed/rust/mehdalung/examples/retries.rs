//! A test of code that reads again while a disk is busy. `cargo test` runs it, and so does
//! `cargo run --example retries`.
use mehdalung::{fault_outcome, Disk, Error, Fault, BUSY};

/// The code under test: reads a block, with three tries.
fn read_block(disk: &mut Disk, lba: u32) -> Result<Option<Vec<u8>>, Error> {
    for _ in 0..3 {
        let reply = disk.initiator(0).read10(lba, 1)?;
        if reply.status() != BUSY {
            return Ok(reply.is_good().then(|| reply.data_in.to_vec()));
        }
    }
    Ok(None)
}

#[cfg_attr(test, test)]
fn a_busy_disk_is_asked_again() -> Result<(), Error> {
    let mut disk = Disk::new(4096, 4, None)?;
    disk.initiator(0).request_sense(false, 18)?; // it takes the unit attention of a new disk
    disk.initiator(0).write10(7, 1, &[0xAB; 512])?;
    let busy = Fault { initiators: 1, outcome: fault_outcome::ARRIVAL_BUSY, ..Fault::default() };
    disk.arm(&Fault { times: 2, ..busy })?;
    assert_eq!(read_block(&mut disk, 7)?, Some(vec![0xAB; 512]));
    disk.arm(&Fault { times: 3, ..busy })?;
    assert_eq!(read_block(&mut disk, 7)?, None);
    Ok(())
}

fn main() -> Result<(), Error> {
    a_busy_disk_is_asked_again()
}
