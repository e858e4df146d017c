//! Compares the CDBs of commands by name with what the disk reports of its commands, and with CDBs that were
//! written by hand from SPC-4 and SBC-3.
mod largest;

use mehdalung::commands::*;
use mehdalung::lists::{reserve_out_list, unmap_list};
use mehdalung::{decode, kind, kind_of, profile, Disk, Error, GOOD};

/// What REPORT SUPPORTED OPERATION CODES of an extended disk returns with a header of 4 bytes.
fn reported(disk: &mut Disk, fields: ReportSupportedOperationCodes) -> Result<Vec<u8>, Error> {
    let reply = disk.initiator(0).report_supported_operation_codes(fields)?;
    assert!(reply.is_good(), "{reply}");
    Ok(reply.data_in.to_vec())
}

/// The usage bits of each command that the disk reports.
fn usage_data(disk: &mut Disk) -> Result<Vec<Vec<u8>>, Error> {
    let all = reported(disk, ReportSupportedOperationCodes::default())?;
    let mut found = Vec::new();
    for descriptor in all[4..].chunks(8) {
        let has_action = descriptor[5] & 1 == 1;
        let one = ReportSupportedOperationCodes {
            reporting_options: if has_action { 0b010 } else { 0b001 },
            requested_operation_code: descriptor[0],
            requested_service_action: u16::from_be_bytes([descriptor[2], descriptor[3]]),
            ..Default::default()
        };
        let data = reported(disk, one)?;
        assert_eq!(data[2..4], descriptor[6..8], "CDB SIZE is CDB LENGTH");
        found.push(data[4..].to_vec());
    }
    Ok(found)
}

#[test]
fn the_largest_fields_set_the_bits_that_the_disk_reports() -> Result<(), Error> {
    let mut disk = Disk::with_profile(profile::EXTENDED, 4096, 16, None)?;
    disk.initiator(0).request_sense(false, 18)?;
    let (mut of_disk, mut by_name) = (usage_data(&mut disk)?, largest::cdbs());
    of_disk.sort();
    by_name.sort();
    assert!(of_disk.len() > 50);
    assert_eq!(by_name, of_disk);
    Ok(())
}

const LBA: u64 = 0x0102_0304_0506_0708;

/// Bytes by hand, in hexadecimal.
fn bytes(hand: &str) -> Vec<u8> {
    hand.split(' ').map(|it| u8::from_str_radix(it, 16).unwrap()).collect()
}

macro_rules! compare {
    ($($hand:literal $made:expr;)*) => { $(assert_eq!($made.to_vec(), bytes($hand));)* };
}

#[test]
fn primary_commands_are_as_by_hand() {
    let page = ModeSense10 { llbaa: true, pc: 1, page_code: 8, ..Default::default() };
    let codes =
        ReportSupportedOperationCodes { rctd: true, reporting_options: 1, ..Default::default() };
    compare! {
        "00 00 00 00 00 00" test_unit_ready();
        "03 01 00 00 FC 00" request_sense(true, 252);
        "12 01 83 01 02 00" inquiry(true, 0x83, 0x0102);
        "15 11 00 00 18 00" mode_select6(true, true, 0x18);
        "55 10 00 00 00 00 00 01 02 00" mode_select10(true, false, 0x0102);
        "1A 08 BF FF C0 00" mode_sense6(ModeSense6 {
            dbd: true, pc: 2, page_code: 0x3F, subpage_code: 0xFF, allocation_length: 0xC0,
        });
        "1A 00 00 00 FF 00" mode_sense6(ModeSense6::default());
        "5A 10 48 01 00 00 00 01 02 00"
            mode_sense10(ModeSense10 { subpage_code: 1, allocation_length: 0x0102, ..page });
        "4D 00 4C 01 00 04 05 02 03 00" LogSense {
            pc: 1, page_code: 0x0C, subpage_code: 1, parameter_pointer: 0x0405, allocation_length: 0x0203,
        }.cdb();
        "4D 00 0C 01 00 04 05 02 03 00" log_sense(0x0C, 1, 0x0405, 0x0203);
        "A0 00 02 00 00 00 01 02 03 04 00 00" report_luns(2, 0x0102_0304);
        "A3 0C 81 2A 01 02 03 04 05 06 00 00" ReportSupportedOperationCodes {
            requested_operation_code: 0x2A, requested_service_action: 0x0102, allocation_length: 0x0304_0506, ..codes
        }.cdb();
        "A3 0D 80 00 00 00 01 02 03 04 00 00"
            report_supported_task_management_functions(true, 0x0102_0304);
        "A3 2A 00 00 00 00 01 02 03 04 00 00" report_target_port_groups(1, 0x0102_0304);
        "1D 24 00 01 02 00" send_diagnostic(1, true, 0x0102);
        "5E 03 00 00 00 00 00 01 02 00" persistent_reserve_in(reserve_in::READ_FULL_STATUS, 0x0102);
        "5E 00 00 00 00 00 00 00 08 00" persistent_reserve_in(reserve_in::READ_KEYS, 8);
        "5F 04 95 00 00 01 02 03 18 00"
            persistent_reserve_out(reserve_out::PREEMPT, 9, 5, 0x0102_0318);
        "5F 06 00 00 00 00 00 00 18 00"
            persistent_reserve_out(reserve_out::REGISTER_AND_IGNORE_EXISTING_KEY, 0, 0, 24);
        "5F 07 00 00 00 00 00 00 30 00" persistent_reserve_out(reserve_out::REGISTER_AND_MOVE, 0, 0, 48);
    }
}

#[test]
fn commands_that_move_blocks_are_as_by_hand() {
    let cached = Read12 { lba: 0x0102_0304, blocks: 0x0506_0708, dpo: false, fua: true };
    compare! {
        "08 1F 02 03 04 00" read6(0x1F_0203, 4);
        "0A 15 02 03 00 00" write6(0x15_0203, 0);
        "28 00 01 02 03 04 00 05 06 00" read10(0x0102_0304, 0x0506);
        "28 10 01 02 03 04 00 05 06 00"
            Read10 { lba: 0x0102_0304, blocks: 0x0506, dpo: true, fua: false }.cdb();
        "2A 08 01 02 03 04 00 05 06 00"
            Write10 { lba: 0x0102_0304, blocks: 0x0506, dpo: false, fua: true }.cdb();
        "A8 08 01 02 03 04 05 06 07 08 00 00" cached.cdb();
        "A8 00 01 02 03 04 05 06 07 08 00 00" read12(0x0102_0304, 0x0506_0708);
        "AA 00 01 02 03 04 05 06 07 08 00 00" write12(0x0102_0304, 0x0506_0708);
        "88 00 01 02 03 04 05 06 07 08 09 0A 0B 0C 00 00" read16(LBA, 0x090A_0B0C);
        "8A 00 01 02 03 04 05 06 07 08 09 0A 0B 0C 00 00" write16(LBA, 0x090A_0B0C);
        "8B 00 01 02 03 04 05 06 07 08 09 0A 0B 0C 00 00" orwrite16(LBA, 0x090A_0B0C);
        "89 00 01 02 03 04 05 06 07 08 00 00 00 09 00 00" compare_and_write(LBA, 9);
        "9C 18 01 02 03 04 05 06 07 08 09 0A 0B 0C 00 00" WriteAtomic16 {
            lba: LBA, blocks: 0x0B0C, atomic_boundary: 0x090A, dpo: true, fua: true,
        }.cdb();
        "2F 02 01 02 03 04 00 05 06 00" verify10(0x0102_0304, 0x0506, 1);
        "AF 06 01 02 03 04 05 06 07 08 00 00" verify12(0x0102_0304, 0x0506_0708, 3);
        "8F 06 01 02 03 04 05 06 07 08 09 0A 0B 0C 00 00" verify16(LBA, 0x090A_0B0C, 3);
        "2E 12 01 02 03 04 00 05 06 00" WriteAndVerify10 {
            lba: 0x0102_0304, blocks: 0x0506, bytchk: 1, dpo: true,
        }.cdb();
        "AE 00 01 02 03 04 05 06 07 08 00 00" write_and_verify12(0x0102_0304, 0x0506_0708, 0);
        "8E 00 01 02 03 04 05 06 07 08 09 0A 0B 0C 00 00" write_and_verify16(LBA, 0x090A_0B0C, 0);
        "34 00 01 02 03 04 00 05 06 00" pre_fetch10(0x0102_0304, 0x0506);
        "90 00 01 02 03 04 05 06 07 08 09 0A 0B 0C 00 00" pre_fetch16(LBA, 0x090A_0B0C);
        "35 02 01 02 03 04 00 05 06 00"
            SynchronizeCache10 { lba: 0x0102_0304, blocks: 0x0506, immed: true }.cdb();
        "91 00 01 02 03 04 05 06 07 08 09 0A 0B 0C 00 00" synchronize_cache16(LBA, 0x090A_0B0C);
    }
}

#[test]
fn other_block_commands_are_as_by_hand() {
    compare! {
        "25 00 00 00 00 00 00 00 00 00" read_capacity10();
        "9E 10 00 00 00 00 00 00 00 00 01 02 03 04 00 00" read_capacity16(0x0102_0304);
        "9E 12 01 02 03 04 05 06 07 08 09 0A 0B 0C 00 00" get_lba_status(LBA, 0x090A_0B0C);
        "37 00 15 00 00 00 00 01 02 00" read_defect_data10(true, false, 5, 0x0102);
        "B7 0D 00 00 00 00 05 06 07 08 00 00" read_defect_data12(false, true, 5, 0x0506_0708);
        "41 08 01 02 03 04 00 05 06 00" write_same10(0x0102_0304, 0x0506, false, true);
        "93 19 01 02 03 04 05 06 07 08 09 0A 0B 0C 00 00" write_same16(WriteSame16 {
            anchor: true, unmap: true, ndob: true, lba: LBA, blocks: 0x090A_0B0C,
        });
        "42 01 00 00 00 00 00 01 02 00" unmap(true, 0x0102);
        "3F 40 01 02 03 04 00 00 00 00" write_long10(0x0102_0304, false, true);
        "04 10 00 00 00 00" format_unit(false, true);
        "48 82 00 00 00 00 00 00 00 00" SanitizeBlockErase { parameter_list_length: 0, immed: true }.cdb();
        "48 03 00 00 00 00 00 00 00 00" sanitize_cryptographic_erase(0);
        "48 1F 00 00 00 00 00 01 02 00" sanitize_exit_failure_mode(0x0102);
        "1B 01 00 01 A7 00" StartStopUnit {
            power_condition_modifier: 1, power_condition: 0xA, loej: true, start: true, immed: true,
            no_flush: true,
        }.cdb();
        "1B 00 00 00 01 00" start_stop_unit(0, 0, false, true);
    }
}

#[test]
#[should_panic(expected = "the address has more than 21 bits")]
fn a_long_address_does_not_fit() {
    read6(1 << 21, 1);
}

#[test]
#[should_panic(expected = "the value has more bits than its field")]
fn a_long_page_code_does_not_fit() {
    mode_sense6(ModeSense6 { page_code: 0x40, ..Default::default() });
}

#[test]
fn an_initiator_sends_commands_by_name() -> Result<(), Error> {
    let mut disk = Disk::new(64, 4, None)?;
    disk.initiator(3).request_sense(false, 18)?;
    assert_eq!(disk.initiator(3).test_unit_ready()?.status(), GOOD);
    assert!(disk.initiator(3).write10(5, 2, &[7; 1024])?.is_good());
    let reply = disk.initiator(3).read16(5, 1)?;
    assert!(reply.is_good() && reply.data_in == [7; 512], "{reply}");
    assert!(disk.initiator(3).unmap(false, &unmap_list(&[(5, 1)]))?.is_good());
    assert_eq!(disk.initiator(3).read16(5, 1)?.data_in, [0; 512]);
    assert_eq!(disk.initiator(3).read16(6, 1)?.data_in, [7; 512]);
    assert_eq!(disk.initiator(3).tool("sg_turs")?.status(), GOOD);
    let cdb = Write10 { lba: 5, blocks: 1, fua: true, ..Default::default() }.cdb();
    assert!(!disk.initiator(3).execute_unflushed(&cdb, &[8; 512])?.waits());
    assert_eq!(disk.initiator(3).execute(&read10(5, 1), &[])?.data_in, [8; 512]);
    assert_eq!(disk.initiator(8).test_unit_ready().err(), Some(Error::NoInitiator));
    Ok(())
}

#[test]
fn lists_are_as_by_hand() {
    let list = "00 00 00 00 00 00 01 02 00 00 00 00 00 00 03 04 00 00 00 00 01 00 00 00";
    assert_eq!(reserve_out_list(0x0102, 0x0304, true).to_vec(), bytes(list));
    let blocks = "00 26 00 20 00 00 00 00 00 00 00 00 00 00 00 05 00 00 00 01 00 00 00 00 \
                  01 02 03 04 05 06 07 08 09 0A 0B 0C 00 00 00 00";
    assert_eq!(unmap_list(&[(5, 1), (LBA, 0x090A_0B0C)]), bytes(blocks));
    assert_eq!(unmap_list(&[(0, 1); 4095])[..4], [0xFF, 0xF6, 0xFF, 0xF0]);
}

#[test]
#[should_panic(expected = "more than 4,095 block descriptors")]
fn a_list_of_too_many_blocks_does_not_fit() {
    unmap_list(&[(0, 1); 4096]);
}

#[test]
#[should_panic(expected = "the parameter list is too long")]
fn a_long_list_does_not_fit() {
    let mut disk = Disk::new(64, 4, None).unwrap();
    let _ = disk.initiator(0).mode_select6(true, false, &[0; 256]);
}

#[test]
fn a_reply_has_the_kind_that_a_tool_gives_it() -> Result<(), Error> {
    let mut disk = Disk::with_profile(profile::EXTENDED, 64, 4, None)?;
    disk.initiator(0).request_sense(false, 18)?;
    let one = ReportSupportedOperationCodes { reporting_options: 1, ..Default::default() };
    for (words, cdb) in [
        ("sg_modes --six", mode_sense6(Default::default()).to_vec()),
        ("sg_modes", mode_sense10(Default::default()).to_vec()),
        ("sg_readcap", read_capacity10().to_vec()),
        ("sg_readcap --16", read_capacity16(32).to_vec()),
        ("sg_get_lba_status", get_lba_status(0, 24).to_vec()),
        ("sg_logs -p 0ch", log_sense(0x0C, 0, 0, 100).to_vec()),
        ("sg_persist -k", persistent_reserve_in(reserve_in::READ_KEYS, 100).to_vec()),
        ("sg_persist -r", persistent_reserve_in(reserve_in::READ_RESERVATION, 100).to_vec()),
        ("sg_luns", report_luns(0, 100).to_vec()),
        ("sg_opcodes", report_supported_operation_codes(Default::default()).to_vec()),
        ("sg_opcodes -o 28h", report_supported_operation_codes(one).to_vec()),
        ("sg_opcodes -t", report_supported_task_management_functions(false, 4).to_vec()),
    ] {
        assert_eq!(disk.tool(0, words)?.kind, kind_of(&cdb), "{words}");
    }
    for (cdb, kind) in [
        (inquiry(false, 0, 36).to_vec(), kind::INQUIRY_EXTENDED),
        (inquiry(true, 0x83, 252).to_vec(), kind::VPD_EXTENDED),
        (request_sense(false, 18).to_vec(), kind::SENSE_EXTENDED),
        (
            persistent_reserve_in(reserve_in::REPORT_CAPABILITIES, 8).to_vec(),
            kind::CAPABILITIES_EXTENDED,
        ),
        (
            persistent_reserve_in(reserve_in::READ_FULL_STATUS, 100).to_vec(),
            kind::FULL_STATUS_EXTENDED,
        ),
        (read_defect_data10(true, true, 0, 8).to_vec(), kind::DEFECTS_10),
        (read_defect_data12(true, true, 0, 8).to_vec(), kind::DEFECTS_12),
        (Vec::new(), kind::HEX),
    ] {
        assert_eq!(kind_of(&cdb), kind);
    }
    let printed = "GOOD\n  returned logical block address: 63\n  logical block length: 512";
    assert_eq!(disk.initiator(0).read_capacity10()?.to_string(), printed);
    Ok(())
}

#[test]
fn the_kinds_of_an_extended_disk_have_all_fields_of_reservations() {
    let capabilities = [0, 8, 0x0D, 0xB0, 0, 0, 0, 0];
    let text = "  length: 8\n  RLR_C: 0, CRH: 0, SIP_C: 1, ATP_C: 1, PTPL_C: 1\n  \
        TMV: 1, ALLOW COMMANDS: 3, PTPL_A: 0\n  types:\n";
    assert_eq!(decode(kind::CAPABILITIES_EXTENDED, &capabilities).unwrap(), text);
    let text = "  length: 8\n  PTPL_C: 1\n  TMV: 1, PTPL_A: 0\n  types:\n";
    assert_eq!(decode(kind::CAPABILITIES, &capabilities).unwrap(), text);
    let mut full = [0; 32];
    (full[7], full[15], full[20], full[27]) = (24, 0xA1, 2, 1);
    let text = decode(kind::FULL_STATUS_EXTENDED, &full).unwrap();
    assert!(text.contains("  key: 0x00000000000000a1, all target ports: 1, holder: 0, "), "{text}");
    let text = decode(kind::FULL_STATUS, &full).unwrap();
    assert!(text.contains("  key: 0x00000000000000a1, holder: 0, "), "{text}");
}
