//! Stands in for `leb128`: the one function that wild's `write_to_buffer` calls.

pub mod write {
    use std::io;

    /// Writes `value` as unsigned LEB128 and answers the number of bytes written.
    pub fn unsigned(writer: &mut impl io::Write, mut value: u64) -> io::Result<usize> {
        let mut count = 1;
        while value >= 0x80 {
            writer.write_all(&[value as u8 | 0x80])?;
            value >>= 7;
            count += 1;
        }
        writer.write_all(&[value as u8])?;
        Ok(count)
    }
}
