//! Tries the parts of the crate that the first minute does not use.
use mehdalung::Wanted;
use mehdalung::{decode, fault_outcome, identity_of_seed, kind, profile, sense_key, version};
use mehdalung::{Damage, Disk, Error, Fault, Identity, Reply};
use mehdalung::{ALL_INITIATORS, BUSY, CHECK_CONDITION, GOOD};
use std::sync::Mutex;
use std::{fs, thread};

const TEST_UNIT_READY: [u8; 6] = [0; 6];
const INQUIRY: [u8; 6] = [0x12, 0, 0, 0, 36, 0];
const READ_CAPACITY: [u8; 10] = [0x25, 0, 0, 0, 0, 0, 0, 0, 0, 0];

#[test]
fn replies_have_texts_and_fields() -> Result<(), Error> {
    let identity = Identity {
        vendor: *b"ACME    ",
        product: *b"DISK            ",
        revision: *b"0200",
        serial: *b"00000042",
        local: 42,
    };
    let mut disk = Disk::new(64, 4, Some(&identity))?;
    let reply = disk.execute(7, &TEST_UNIT_READY, &[])?;
    assert_eq!((reply.status(), reply.exit_status()), (CHECK_CONDITION, 6));
    assert_eq!(reply.text().unwrap(), "  sense: UNIT ATTENTION, 29h/00h\n");
    let fields = reply.fields().unwrap();
    assert_eq!((fields.key, fields.asc, fields.ascq, fields.has_information), (6, 0x29, 0, 0));
    let reply = disk.execute(7, &INQUIRY, &[])?;
    assert_eq!((reply.status(), reply.fields()), (GOOD, None));
    assert_eq!(&reply.data_in[8..], b"ACME    DISK            0200");
    assert!(reply.text().unwrap().starts_with("  00000000  "));
    let text = decode(kind::INQUIRY, reply.data_in);
    assert!(text.is_some() && text == disk.tool(7, "sg_inq")?.text());
    assert_eq!(disk.execute(2, &TEST_UNIT_READY, &[])?.status(), CHECK_CONDITION);
    assert_eq!(disk.tool(2, "sg_persist -o -G -S 2")?.status(), GOOD);
    assert_eq!(disk.registered()?, 1 << 2);
    disk.power_cycle()?;
    assert_eq!(disk.registered()?, 0);
    disk.forget(2)?;
    assert_eq!(disk.execute(2, &TEST_UNIT_READY, &[])?.status(), GOOD);
    Ok(())
}

/// Compares sense key, additional sense code and qualifier, and INFORMATION.
fn compare_sense(reply: &Reply, sense: Option<(u8, u8, u8)>, information: Option<u64>) {
    assert_eq!(reply.sense_key(), sense.map(|it| it.0), "{reply}");
    assert_eq!(reply.asc(), sense.map(|it| it.1), "{reply}");
    assert_eq!(reply.ascq(), sense.map(|it| it.2), "{reply}");
    assert_eq!(reply.information(), information, "{reply}");
}

#[test]
fn replies_have_sense_data_even_of_deferred_errors() -> Result<(), Error> {
    let mut disk = Disk::with_profile(profile::EXTENDED, 64, 4, None)?;
    compare_sense(&disk.initiator(0).test_unit_ready()?, Some((6, 0x29, 0)), None);
    compare_sense(&disk.initiator(0).test_unit_ready()?, None, None);
    disk.happen("fault medium 3/11/04 blocks 10 2")?;
    compare_sense(&disk.initiator(0).read10(8, 8)?, Some((3, 0x11, 4)), Some(10));
    disk.disarm_all()?;
    let outcome = fault_outcome::ARRIVAL_DEFERRED_ERROR;
    let (key, asc, ascq) = (4, 0x0C, 2);
    disk.arm(&Fault { initiators: 1, outcome, key, asc, ascq, ..Fault::default() })?;
    let reply = disk.initiator(0).test_unit_ready()?;
    assert_eq!((reply.sense()[0], reply.fields()), (0x71, None));
    compare_sense(&reply, Some((key, asc, ascq)), None);
    Ok(())
}

#[test]
fn sense_keys_are_in_the_order_of_spc_4() {
    use sense_key::*;
    let lower = [NO_SENSE, RECOVERED_ERROR, NOT_READY, MEDIUM_ERROR, HARDWARE_ERROR];
    let middle = [ILLEGAL_REQUEST, UNIT_ATTENTION, DATA_PROTECT, BLANK_CHECK, VENDOR_SPECIFIC];
    let upper = [COPY_ABORTED, ABORTED_COMMAND, RESERVED, VOLUME_OVERFLOW, MISCOMPARE, COMPLETED];
    assert!(lower.into_iter().chain(middle).chain(upper).eq(0..16));
}

#[test]
fn two_seeds_make_two_identities() -> Result<(), Error> {
    for (seed, serial) in [(1, b"00000001"), (0xF00D, b"0000f00d"), (1 << 32, b"00000000")] {
        let identity = identity_of_seed(seed)?;
        assert_eq!((&identity.vendor, &identity.product), (b"SGMODEL ", b"THIN DISK       "));
        assert_eq!((&identity.revision, &identity.serial), (b"0100", serial));
        assert_eq!(identity.local, seed);
        Disk::with_profile(profile::EXTENDED, 64, 4, Some(&identity))?;
    }
    assert_eq!(identity_of_seed(1 << 60).err(), Some(Error::IdentityLocal));
    Ok(())
}

/// TEST UNIT READY of the disk's initiators in a mask reports a unit attention, and no other is pending.
fn only_report(disk: &mut Disk, initiators: u64, asc: u8, ascq: u8) -> Result<(), Error> {
    for initiator in 0..disk.initiators()? {
        if initiators >> initiator & 1 == 1 {
            let fields = disk.execute(initiator, &TEST_UNIT_READY, &[])?.fields().unwrap();
            assert_eq!((fields.key, fields.asc, fields.ascq), (6, asc, ascq));
        }
        assert_eq!(disk.execute(initiator, &TEST_UNIT_READY, &[])?.status(), GOOD);
    }
    Ok(())
}

#[test]
fn happenings_establish_unit_attentions() -> Result<(), Error> {
    let mut disk = Disk::new(64, 4, None)?;
    only_report(&mut disk, ALL_INITIATORS, 0x29, 0x00)?;
    disk.reset()?;
    only_report(&mut disk, ALL_INITIATORS, 0x29, 0x03)?;
    disk.reset_target()?;
    only_report(&mut disk, ALL_INITIATORS, 0x29, 0x02)?;
    disk.lose_nexus(5)?;
    only_report(&mut disk, 1 << 5, 0x29, 0x07)?;
    disk.attention(0x28, 0x00, 1 << 2 | 1 << 7)?;
    only_report(&mut disk, 1 << 2 | 1 << 7, 0x28, 0x00)?;
    disk.grow(128)?;
    only_report(&mut disk, ALL_INITIATORS, 0x2A, 0x09)?;
    let reply = disk.execute(0, &READ_CAPACITY, &[])?;
    assert_eq!(reply.data_in, [0, 0, 0, 127, 0, 0, 2, 0]);
    disk.attention(0x28, 0x00, 0xFF)?;
    only_report(&mut disk, 0xFF, 0x28, 0x00)?;
    disk.attention(0x28, 0x00, ALL_INITIATORS)?;
    only_report(&mut disk, 0xFF, 0x28, 0x00)?;
    disk.attention(0x28, 0x00, 0)?;
    only_report(&mut disk, 0, 0, 0)?;
    for initiators in [1 << 8, 1 << 8 | 1, 1 << 63, ALL_INITIATORS - 1, ALL_INITIATORS >> 1] {
        assert_eq!(disk.attention(0x29, 0x00, initiators), Err(Error::NoInitiator));
    }
    for initiator in [8, 63, 64] {
        assert_eq!(disk.lose_nexus(initiator), Err(Error::NoInitiator));
    }
    assert_eq!(disk.attention(0x29, 0x01, 1), Err(Error::UnknownCondition));
    assert_eq!(disk.grow(0), Err(Error::Blocks));
    only_report(&mut disk, 0, 0, 0)
}

#[test]
fn an_extended_disk_has_64_initiators() -> Result<(), Error> {
    assert_eq!(Disk::new(64, 4, None)?.initiators()?, 8);
    for profile in [profile::EXTENDED, profile::EXTENDED_CUT, profile::EXTENDED_512E] {
        let mut disk = Disk::with_profile(profile, 64, 4, None)?;
        assert_eq!(disk.initiators()?, 64);
        only_report(&mut disk, ALL_INITIATORS, 0x29, 0x00)?;
        disk.lose_nexus(63)?;
        only_report(&mut disk, 1 << 63, 0x29, 0x07)?;
        disk.attention(0x3F, 0x0E, 1 << 63 | 1 << 8)?;
        only_report(&mut disk, 1 << 63 | 1 << 8, 0x3F, 0x0E)?;
        disk.happen("attention 2Ah/09h 0x3F 7")?;
        only_report(&mut disk, 1 << 63 | 1 << 7, 0x2A, 0x09)?;
        for initiator in [63, 8] {
            assert_eq!(disk.tool(initiator, "sg_persist -o -G -S 2")?.status(), GOOD);
        }
        assert_eq!(disk.registered()?, 1 << 63 | 1 << 8);
        disk.reset()?;
        disk.forget(63)?;
        only_report(&mut disk, ALL_INITIATORS >> 1, 0x29, 0x03)?;
        let busy = Fault { initiators: 1 << 63, times: 1, ..Fault::default() };
        disk.arm(&busy)?;
        assert_eq!(disk.faults().unwrap(), "  0: arrival busy times 1 to 63\n");
        assert!(disk.initiator(62).test_unit_ready()?.is_good());
        assert_eq!(disk.initiator(63).test_unit_ready()?.status(), BUSY);
        assert_eq!(disk.faults().unwrap(), "");
        disk.arm(&Fault { initiators: 1 << 8, skip: 1, ..Fault::default() })?;
        assert!(disk.initiator(8).test_unit_ready()?.is_good());
        assert_eq!(disk.initiator(8).test_unit_ready()?.status(), BUSY);
        let listed = "  0: arrival busy skip 1 to 8\n    to 8: skip 0\n";
        assert_eq!(disk.faults().unwrap(), listed);
        disk.disarm_all()?;
        assert_eq!(disk.initiator(64).test_unit_ready().err(), Some(Error::NoInitiator));
        assert_eq!(disk.forget(64), Err(Error::NoInitiator));
        assert_eq!(disk.lose_nexus(64), Err(Error::NoInitiator));
        only_report(&mut disk, 0, 0, 0)?;
    }
    Ok(())
}

#[test]
fn a_disk_for_tests_has_no_unit_attention() -> Result<(), Error> {
    let mut disk = Disk::for_tests()?;
    assert_eq!(disk.initiators()?, 64);
    only_report(&mut disk, 0, 0, 0)?;
    assert_eq!(disk.execute(0, &READ_CAPACITY, &[])?.data_in, [0, 0, 0x0F, 0xFF, 0, 0, 2, 0]);
    assert!(disk.initiator(63).write10(0, 1024, &[1; 1024 * 512])?.is_good());
    // the pool has no more room (SBC-3, 4.7)
    let reply = disk.initiator(63).write10(1024, 1, &[1; 512])?;
    compare_sense(&reply, Some((sense_key::DATA_PROTECT, 0x27, 0x07)), None);
    Ok(())
}

#[test]
fn armed_faults_meet_commands() -> Result<(), Error> {
    let read_five = [0x28, 0, 0, 0, 0, 0, 0, 0, 5, 0];
    let mut disk = Disk::new(64, 4, None)?;
    only_report(&mut disk, ALL_INITIATORS, 0x29, 0x00)?;
    let busy = Fault { initiators: 1 << 2, has_code: 1, skip: 1, times: 1, ..Fault::default() };
    disk.arm(&busy)?;
    for status in [GOOD, BUSY, GOOD] {
        assert_eq!(disk.execute(2, &TEST_UNIT_READY, &[])?.status(), status);
    }
    let outcome = fault_outcome::MEDIUM_CHECK_CONDITION;
    let fault = Fault { initiators: ALL_INITIATORS, outcome, lba: 3, count: 4, ..Fault::default() };
    disk.arm(&Fault { key: 3, asc: 0x11, ascq: 0x01, ..fault })?;
    let fields = disk.execute(7, &read_five, &[])?.fields().unwrap();
    assert_eq!((fields.key, fields.asc, fields.ascq, fields.information), (3, 0x11, 0x01, 3));
    disk.disarm(0)?;
    assert_eq!(disk.execute(7, &read_five, &[])?.status(), GOOD);
    let outcome = fault_outcome::AFTER_SHORT_DATA_IN;
    disk.arm(&Fault { initiators: 1 << 7, outcome, blocks: 700, times: 1, ..Fault::default() })?;
    let reply = disk.execute(7, &read_five, &[])?;
    assert_eq!((reply.status(), reply.data_in), (GOOD, &[0; 700][..]));
    for _ in 0..8 {
        disk.arm(&busy)?;
    }
    assert_eq!(disk.arm(&busy), Err(Error::Faults));
    disk.disarm_all()?;
    assert_eq!(disk.arm(&Fault { outcome: 11, ..busy }), Err(Error::UnknownFault));
    assert_eq!(disk.arm(&Fault { key: 16, ..fault }), Err(Error::SenseKey));
    for initiators in [0, 1 << 8, 1 << 8 | 1, 1 << 63 | 1 << 8, ALL_INITIATORS - 1] {
        assert_eq!(disk.arm(&Fault { initiators, ..busy }), Err(Error::NoInitiator));
    }
    assert_eq!(disk.arm(&Fault { has_code: 2, ..busy }), Err(Error::FaultFlag));
    assert_eq!(disk.disarm(8), Err(Error::FaultNumber));
    disk.arm(&Fault { initiators: ALL_INITIATORS, times: 1, ..Fault::default() })?;
    let left: Vec<_> = (0..8).map(|it| format!("    to {it}: times 1\n")).collect();
    assert_eq!(disk.faults().unwrap(), format!("  0: arrival busy times 1\n{}", left.concat()));
    for initiator in 0..8 {
        assert_ne!(disk.faults().unwrap(), "");
        assert_eq!(disk.execute(initiator, &TEST_UNIT_READY, &[])?.status(), BUSY);
    }
    assert_eq!(disk.faults().unwrap(), "");
    only_report(&mut disk, 0, 0, 0)
}

#[test]
fn words_say_what_happens() -> Result<(), Error> {
    let mut disk = Disk::new(64, 4, None)?;
    only_report(&mut disk, ALL_INITIATORS, 0x29, 0x00)?;
    disk.happen("attention 3Fh/0Eh 1 6")?;
    only_report(&mut disk, 1 << 1 | 1 << 6, 0x3F, 0x0E)?;
    disk.happen("fault medium 3/11/00 to 2 blocks 10 2 healed")?;
    let read = [0x28, 0, 0, 0, 0, 8, 0, 0, 4, 0];
    let fields = disk.execute(2, &read, &[])?.fields().unwrap();
    assert_eq!((fields.key, fields.asc, fields.ascq, fields.information), (3, 0x11, 0x00, 10));
    assert_eq!(disk.faults().unwrap(), "  0: medium 3/11/00 blocks 10 2 healed to 2\n");
    disk.happen("heal 0")?;
    assert_eq!(disk.faults().unwrap(), "");
    assert_eq!(disk.execute(2, &read, &[])?.status(), GOOD);
    assert_eq!(disk.happen("faults"), Err(Error::UnknownVerb));
    assert_eq!(disk.happen("nexus 64"), Err(Error::Usage));
    assert_eq!(disk.happen("nexus 8"), Err(Error::NoInitiator));
    assert_eq!(disk.happen("fault arrival busy to 63"), Err(Error::NoInitiator));
    assert_eq!(disk.happen("attention 28h/00h 0 8"), Err(Error::NoInitiator));
    assert_eq!(disk.happen("reset\n"), Err(Error::BadByte));
    assert_eq!(disk.happen("reset\0"), Err(Error::BadByte));
    only_report(&mut disk, 0, 0, 0)
}

#[test]
fn calls_are_refused() -> Result<(), Error> {
    let why = |refused: Result<Reply, Error>| refused.err();
    let mut disk = Disk::new(64, 4, None)?;
    assert_eq!(why(disk.execute(8, &TEST_UNIT_READY, &[])), Some(Error::NoInitiator));
    assert_eq!(why(disk.tool(0, "sg_foo")), Some(Error::UnknownTool));
    assert_eq!(why(disk.tool(0, "sg_inq\0")), Some(Error::BadByte));
    assert_eq!(Disk::new(0, 4, None).err(), Some(Error::Blocks));
    assert_eq!(Disk::new(64, 65_537, None).err(), Some(Error::Pool));
    assert_eq!(disk.forget(8), Err(Error::NoInitiator));
    assert_eq!(Disk::with_profile(4, 64, 4, None).err(), Some(Error::UnknownProfile));
    let mut extended = Disk::with_profile(profile::EXTENDED, 64, 4, None)?;
    assert_eq!(extended.execute(0, &INQUIRY, &[])?.status(), GOOD);
    let mut cut = Disk::with_profile(profile::EXTENDED_CUT, 64, 4, None)?;
    assert_eq!(cut.execute(0, &INQUIRY, &[])?.status(), GOOD);
    assert_eq!(decode(kind::FULL_STATUS_EXTENDED + 1, &[]), None);
    assert!(version().unwrap().starts_with("mehdalung "));
    Ok(())
}

#[test]
fn physical_blocks_of_4096_bytes_are_reported() -> Result<(), Error> {
    for (profile, exponent, granularity) in [
        (profile::EXTENDED, 0u8, 1u8),
        (profile::EXTENDED_CUT, 0, 1),
        (profile::EXTENDED_512E, 3, 8),
    ] {
        let mut disk = Disk::with_profile(profile, 64, 4, None)?;
        let limits = disk.initiator(0).inquiry(true, 0xB0, 64)?;
        assert_eq!(limits.data_in[6..8], [0, granularity]);
        assert_eq!(limits.data_in[28..32], [0, 0, 0, granularity]);
        only_report(&mut disk, ALL_INITIATORS, 0x29, 0x00)?;
        let capacity = disk.initiator(0).read_capacity16(32)?;
        assert_eq!(capacity.data_in[8..16], [0, 0, 2, 0, 0, exponent, 0xC0, 0]);
        assert_eq!(capacity.data_in[16..], [0u8; 16]);
    }
    Ok(())
}

const WRITE_ONE: [u8; 10] = [0x2A, 0, 0, 0, 0, 5, 0, 0, 1, 0];
const READ_ONE: [u8; 10] = [0x28, 0, 0, 0, 0, 5, 0, 0, 1, 0];

fn write_one(disk: &mut Disk, byte: u8) -> Result<(), Error> {
    assert_eq!(disk.execute(0, &WRITE_ONE, &[byte; 512])?.status(), GOOD);
    Ok(())
}

/// The first byte of the block at address 5 of a disk that was opened.
fn byte_of(disk: &mut Disk) -> Result<u8, Error> {
    only_report(disk, ALL_INITIATORS, 0x29, 0x00)?;
    Ok(disk.execute(1, &READ_ONE, &[])?.data_in[0])
}

#[test]
fn a_file_keeps_a_disk() -> Result<(), Error> {
    let path = std::env::temp_dir().join(format!("mehdalung-{}", std::process::id()));
    let any = Wanted::default();
    assert_eq!(Disk::open(&path, &any).err(), Some(Error::UnknownProfile));
    let wanted = Wanted {
        profile: Some(profile::EXTENDED),
        blocks: Some(64),
        pool: Some(4),
        identity: None,
    };
    let mut disk = Disk::open(&path, &wanted)?;
    assert_eq!(byte_of(&mut disk)?, 0);
    write_one(&mut disk, 1)?;
    assert_eq!(Disk::open(&path, &any).err(), Some(Error::FileBusy));
    disk.close()?;
    let mut disk = Disk::open(&path, &wanted)?;
    assert_eq!(byte_of(&mut disk)?, 1);
    write_one(&mut disk, 2)?;
    disk.flush()?;
    write_one(&mut disk, 3)?;
    disk.free();
    let mut disk = Disk::open(&path, &any)?;
    assert_eq!(byte_of(&mut disk)?, 2);
    write_one(&mut disk, 4)?;
    drop(disk);
    assert_eq!(byte_of(&mut Disk::open(&path, &any)?)?, 4);
    for (other, error) in [
        (Wanted { blocks: Some(65), ..any }, Error::OtherBlocks),
        (Wanted { pool: Some(5), ..any }, Error::OtherPool),
        (Wanted { profile: Some(profile::BASE), ..any }, Error::OtherProfile),
        (Wanted { profile: Some(profile::EXTENDED_512E), ..any }, Error::OtherProfile),
        (Wanted { identity: Some(&identity_of_seed(2)?), ..any }, Error::OtherIdentity),
    ] {
        assert_eq!(Disk::open(&path, &other).err(), Some(error));
    }
    fs::remove_file(&path).unwrap();
    assert_eq!(Disk::new(64, 4, None)?.flush(), Err(Error::NoFile));
    Ok(())
}

#[test]
fn a_file_without_a_disk_is_refused() -> Result<(), Error> {
    let path = std::env::temp_dir().join(format!("mehdalung-refused-{}", std::process::id()));
    let any = Wanted::default();
    let wanted =
        Wanted { profile: Some(profile::BASE), blocks: Some(64), pool: Some(4), identity: None };
    Disk::open(&path, &wanted)?.close()?;
    let mut bytes = fs::read(&path).unwrap();
    bytes[11] = 1;
    fs::write(&path, &bytes).unwrap();
    assert_eq!(Disk::open(&path, &any).err(), Some(Error::OtherVersion(1)));
    fs::write(&path, "This is no disk.").unwrap();
    assert_eq!(Disk::open(&path, &any).err(), Some(Error::NotADisk));
    fs::remove_file(&path).unwrap();
    assert_eq!(Disk::open(path.join("disk"), &any).err(), Some(Error::CannotOpen(2)));
    Ok(())
}

#[test]
fn commands_share_a_flush() -> Result<(), Error> {
    let path = std::env::temp_dir().join(format!("mehdalung-group-{}", std::process::id()));
    let wanted =
        Wanted { profile: Some(profile::BASE), blocks: Some(64), pool: Some(4), identity: None };
    let mut write_through = WRITE_ONE;
    write_through[1] = 0x08;
    let mut disk = Disk::open(&path, &wanted)?;
    only_report(&mut disk, ALL_INITIATORS, 0x29, 0x00)?;
    for (cdb, byte, waits) in
        [(WRITE_ONE, 1, false), (write_through, 2, true), (WRITE_ONE, 3, false)]
    {
        let reply = disk.execute_unflushed(0, &cdb, &[byte; 512])?;
        assert_eq!((reply.status(), reply.waits()), (GOOD, waits));
    }
    disk.flush()?;
    let reply = disk.execute_unflushed(0, &write_through, &[4; 512])?;
    assert_eq!((reply.status(), reply.waits()), (GOOD, true));
    disk.free();
    assert_eq!(byte_of(&mut Disk::open(&path, &wanted)?)?, 3);
    fs::remove_file(&path).unwrap();
    assert!(!Disk::new(64, 4, None)?.execute_unflushed(0, &write_through, &[5; 512])?.waits());
    Ok(())
}

#[test]
fn replies_print_their_status_and_errors_their_reason() -> Result<(), Error> {
    let mut disk = Disk::new(64, 4, None)?;
    disk.initiator(0).request_sense(false, 18)?;
    for (outcome, printed) in [
        (fault_outcome::ARRIVAL_BUSY, "BUSY"),
        (fault_outcome::ARRIVAL_TASK_SET_FULL, "TASK SET FULL"),
        (fault_outcome::ARRIVAL_RESERVATION_CONFLICT, "RESERVATION CONFLICT"),
        (fault_outcome::ARRIVAL_NO_REPLY, "NO REPLY"),
    ] {
        disk.arm(&Fault { initiators: 1, outcome, times: 1, ..Fault::default() })?;
        let reply = disk.initiator(0).test_unit_ready()?;
        assert!(!reply.is_good());
        assert_eq!((format!("{reply}"), format!("{reply:?}")), (printed.into(), printed.into()));
    }
    assert_eq!(disk.initiator(0).test_unit_ready()?.to_string(), "GOOD");
    let refused = disk.initiator(8).test_unit_ready().unwrap_err();
    assert_eq!(refused.to_string(), "the disk has no such initiator, or a fault names none");
    let no_file = "cannot open the file: No such file or directory (os error 2)";
    assert_eq!(Error::CannotOpen(2).to_string(), no_file);
    assert_eq!(Error::OtherVersion(7).to_string(), "the file has another version of the format: 7");
    let damaged = Error::DamagedFile(Damage { batch: 3, offset: 16 });
    assert_eq!(damaged.to_string(), "the file is damaged: batch 3, offset 16");
    Ok(())
}

#[test]
fn two_threads_use_a_disk_by_turns() -> Result<(), Error> {
    let disk = Mutex::new(Disk::new(64, 4, None)?);
    thread::scope(|threads| {
        for number in 0..2 {
            let disk = &disk;
            threads.spawn(move || {
                for _ in 0..100 {
                    disk.lock().unwrap().initiator(number).request_sense(false, 18).unwrap();
                }
            });
        }
    });
    assert!(disk.lock().unwrap().initiator(1).test_unit_ready()?.is_good());
    Ok(())
}
