//! Makes CDBs field by field.

/// The bytes of a CDB. Bits without a field are 0.
pub(crate) struct Cdb<const N: usize>([u8; N]);

impl<const N: usize> Cdb<N> {
    pub(crate) const fn of(opcode: u8) -> Self {
        let mut bytes = [0; N];
        bytes[0] = opcode;
        Cdb(bytes)
    }

    /// Puts a value into some bits of a byte.
    pub(crate) const fn bits(mut self, byte: usize, high: u32, low: u32, value: u8) -> Self {
        assert!(value as u32 >> (high + 1 - low) == 0, "the value has more bits than its field");
        self.0[byte] |= value << low;
        self
    }

    /// Puts a flag into a bit of a byte.
    pub(crate) const fn bit(self, byte: usize, index: u32, is_set: bool) -> Self {
        self.bits(byte, index, index, is_set as u8)
    }

    /// Puts a number into whole bytes, which have room for every value of its type.
    pub(crate) const fn number(mut self, first: usize, last: usize, value: u64) -> Self {
        let (mut at, mut rest) = (last + 1, value);
        while at > first {
            at -= 1;
            self.0[at] = rest as u8;
            rest >>= 8;
        }
        self
    }

    /// Puts the address of READ(6) or WRITE(6) into its 21 bits.
    pub(crate) const fn address_6(self, value: u64) -> Self {
        assert!(value >> 21 == 0, "the address has more than 21 bits");
        self.bits(1, 4, 0, (value >> 16) as u8).number(2, 3, value & 0xFFFF)
    }

    pub(crate) const fn end(self) -> [u8; N] {
        self.0
    }
}

/// The length of a parameter list, as the type of its field.
pub(crate) fn length_of<T: TryFrom<usize>>(list: &[u8]) -> T {
    match T::try_from(list.len()) {
        Ok(length) => length,
        Err(_) => panic!("the parameter list is too long"),
    }
}
