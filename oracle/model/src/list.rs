//! Document 01, "Script frames": what is written.

use crate::Refusal;

/// One line of a list: an opcode and what it adds.
#[derive(Clone, Debug, PartialEq, Eq)]
pub struct Line {
    pub opcode: u8,
    pub operands: Vec<u16>,
}

const DIGITS: &[u8; 16] = b"0123456789abcdef";

pub fn write_digits(value: usize, digits: u32, out: &mut Vec<u8>) {
    for place in (0..digits).rev() {
        out.push(DIGITS[(value >> (4 * place)) % 16]);
    }
}

/// "lowercase hex, no blanks, each ended by LF. An opcode of two digits, then operands of four"
pub fn write_line(opcode: u8, operands: &[u16], out: &mut Vec<u8>) {
    write_digits(opcode.into(), 2, out);
    for operand in operands {
        write_digits((*operand).into(), 4, out);
    }
    out.push(b'\n');
}

/// "The list has one line a frame, then `90` and the size."
pub fn write_list(lines: &[Line], size: usize) -> Vec<u8> {
    let mut out = Vec::new();
    for line in lines {
        write_line(line.opcode, &line.operands, &mut out);
    }
    write_line(0x90, &[size as u16], &mut out);
    out
}

/// "our programs then print `ee`, the number in two hex digits, the line in four"; W-205: "24 shows the recording's line, in eight
/// digits"
pub fn print_refusal(refusal: Refusal) -> Vec<u8> {
    let mut out = b"ee".to_vec();
    let digits = if refusal.number == 24 { 8 } else { 4 };
    write_digits(refusal.number.into(), 2, &mut out);
    write_digits(refusal.line, digits, &mut out);
    out.push(b'\n');
    out
}
