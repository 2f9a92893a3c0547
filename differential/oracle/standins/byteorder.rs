// byteorder: reads of 4 and 8 bytes, low byte first; used only to set up data and stack, which is never done here.
pub trait ByteOrder {
    fn read_u32(bytes: &[u8]) -> u32;
    fn read_u64(bytes: &[u8]) -> u64;
}

pub struct LittleEndian;

impl ByteOrder for LittleEndian {
    fn read_u32(bytes: &[u8]) -> u32 {
        u32::from_le_bytes(bytes[..4].try_into().unwrap())
    }
    fn read_u64(bytes: &[u8]) -> u64 {
        u64::from_le_bytes(bytes[..8].try_into().unwrap())
    }
}
