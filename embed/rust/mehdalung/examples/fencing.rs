//! A test of a fence by persistent reservation: a node that is preempted writes nothing any more.
//! `cargo test` runs it, and so does `cargo run --example fencing`.
use mehdalung::commands::reserve_out::{PREEMPT, REGISTER, RESERVE};
use mehdalung::lists::reservation_type::WRITE_EXCLUSIVE_REGISTRANTS_ONLY as TYPE;
use mehdalung::lists::reserve_out_list;
use mehdalung::{Disk, Error, CHECK_CONDITION, RESERVATION_CONFLICT};

#[cfg_attr(test, test)]
fn a_preempted_node_writes_nothing() -> Result<(), Error> {
    let mut disk = Disk::new(4096, 4, None)?;
    for (node, key) in [(0, 0xA), (1, 0xB)] {
        disk.initiator(node).request_sense(false, 18)?; // it takes the unit attention of a new disk
        let list = reserve_out_list(0, key, false);
        assert!(disk.initiator(node).persistent_reserve_out(REGISTER, 0, 0, &list)?.is_good());
    }
    let list = reserve_out_list(0xB, 0, false);
    assert!(disk.initiator(1).persistent_reserve_out(RESERVE, 0, TYPE, &list)?.is_good());
    assert!(disk.initiator(1).write10(0, 1, &[1; 512])?.is_good());
    let list = reserve_out_list(0xA, 0xB, false);
    assert!(disk.initiator(0).persistent_reserve_out(PREEMPT, 0, TYPE, &list)?.is_good());
    // the first command of the node reports that it was preempted
    assert_eq!(disk.initiator(1).write10(0, 1, &[2; 512])?.status(), CHECK_CONDITION);
    assert_eq!(disk.initiator(1).write10(0, 1, &[2; 512])?.status(), RESERVATION_CONFLICT);
    assert_eq!(disk.initiator(0).read10(0, 1)?.data_in, [1; 512]);
    Ok(())
}

fn main() -> Result<(), Error> {
    a_preempted_node_writes_nothing()
}
