//! Parameter lists, as data-out of commands.

/// The types of persistent reservations, for the TYPE field (SPC-4, 6.15).
pub mod reservation_type {
    /// Write Exclusive.
    pub const WRITE_EXCLUSIVE: u8 = 1;
    /// Exclusive Access.
    pub const EXCLUSIVE_ACCESS: u8 = 3;
    /// Write Exclusive, Registrants Only.
    pub const WRITE_EXCLUSIVE_REGISTRANTS_ONLY: u8 = 5;
    /// Exclusive Access, Registrants Only.
    pub const EXCLUSIVE_ACCESS_REGISTRANTS_ONLY: u8 = 6;
    /// Write Exclusive, All Registrants.
    pub const WRITE_EXCLUSIVE_ALL_REGISTRANTS: u8 = 7;
    /// Exclusive Access, All Registrants.
    pub const EXCLUSIVE_ACCESS_ALL_REGISTRANTS: u8 = 8;
}

/// Returns the list of PERSISTENT RESERVE OUT (SPC-4, 6.16): RESERVATION KEY, SERVICE ACTION RESERVATION
/// KEY and APTPL.
pub fn reserve_out_list(key: u64, service_action_key: u64, aptpl: bool) -> [u8; 24] {
    let mut list = [0; 24];
    list[..8].copy_from_slice(&key.to_be_bytes());
    list[8..16].copy_from_slice(&service_action_key.to_be_bytes());
    list[20] = aptpl.into();
    list
}

/// Returns the list of UNMAP (SBC-3, 5.28) with block descriptors: an address, and a number of blocks.
///
/// # Panics
///
/// If there are more than 4,095 block descriptors, whose length does not fit.
pub fn unmap_list(descriptors: &[(u64, u32)]) -> Vec<u8> {
    assert!(descriptors.len() <= 4095, "there are more than 4,095 block descriptors");
    let length = 16 * descriptors.len() as u16;
    let mut list = [(length + 6).to_be_bytes(), length.to_be_bytes(), [0; 2], [0; 2]].concat();
    for (lba, blocks) in descriptors {
        list.extend(lba.to_be_bytes());
        list.extend(blocks.to_be_bytes());
        list.extend([0; 4]);
    }
    list
}
