use mehdalung::{sense_key::MISCOMPARE, Disk, Error};
#[test]
fn a_lock_goes_to_one_of_two_nodes() -> Result<(), Error> {
    let mut disk = Disk::for_tests()?;
    let lock = [[0u8; 512], [1; 512]].concat(); // it compares a block with zeros, and writes ones
    assert!(disk.initiator(0).compare_and_write(7, 1, &lock)?.is_good());
    let reply = disk.initiator(1).compare_and_write(7, 1, &lock)?;
    assert_eq!((reply.sense_key(), reply.asc()), (Some(MISCOMPARE), Some(0x1D)), "{reply}");
    Ok(())
}
