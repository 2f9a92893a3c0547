// riscu: the decoded instruction, as the builder reads it. A register is one of 32, an immediate a 32-bit number.
pub const WORD_SIZE: usize = 8;
pub const WORD_SIZE32BIT: usize = 4;
pub const INSTRUCTION_SIZE: usize = 4;

#[rustfmt::skip]
#[derive(Clone, Copy, Debug, PartialEq, Eq)]
pub enum Register {
    Zero, Ra, Sp, Gp, Tp, T0, T1, T2, S0, S1, A0, A1, A2, A3, A4, A5,
    A6, A7, S2, S3, S4, S5, S6, S7, S8, S9, S10, S11, T3, T4, T5, T6,
}

#[rustfmt::skip]
const REGISTERS: [Register; 32] = {
    use Register::*;
    [Zero, Ra, Sp, Gp, Tp, T0, T1, T2, S0, S1, A0, A1, A2, A3, A4, A5,
     A6, A7, S2, S3, S4, S5, S6, S7, S8, S9, S10, S11, T3, T4, T5, T6]
};

impl From<u32> for Register {
    fn from(number: u32) -> Self {
        REGISTERS[number as usize]
    }
}

// The six formats: their fields, readable by name.
pub mod types {
    use super::Register;

    macro_rules! format {
        ($name:ident: $($field:ident $of:ty),*) => {
            #[derive(Clone, Copy, Debug)]
            pub struct $name { $($field: $of),* }

            impl $name {
                pub fn new($($field: $of),*) -> Self {
                    Self { $($field),* }
                }
                $(pub fn $field(&self) -> $of {
                    self.$field
                })*
            }
        };
    }

    format!(RType: rd Register, rs1 Register, rs2 Register);
    format!(IType: rd Register, rs1 Register, imm i32);
    format!(SType: rs1 Register, rs2 Register, imm i32);
    format!(BType: rs1 Register, rs2 Register, imm i32);
    format!(UType: rd Register, imm u32);
    format!(JType: rd Register, imm i32);
    format!(NoFields:);
}

use types::*;

// The fifty kinds, Lwu, which the builder names too, and Other for every kind that it does not name.
#[rustfmt::skip]
#[derive(Clone, Copy, Debug)]
pub enum Instruction {
    Lui(UType), Auipc(UType),
    Lb(IType), Lh(IType), Lw(IType), Ld(IType), Lbu(IType), Lhu(IType),
    Sb(SType), Sh(SType), Sw(SType), Sd(SType),
    Addi(IType), Sltiu(IType), Xori(IType), Ori(IType), Andi(IType),
    Slli(IType), Srli(IType), Srai(IType),
    Addiw(IType), Slliw(IType), Srliw(IType), Sraiw(IType),
    Add(RType), Sub(RType), Sll(RType), Sltu(RType), Srl(RType), Sra(RType), Or(RType), And(RType),
    Mul(RType), Div(RType), Divu(RType), Remu(RType),
    Addw(RType), Divw(RType), Subw(RType), Sllw(RType), Mulw(RType),
    Beq(BType), Bne(BType), Blt(BType), Bge(BType), Bltu(BType), Bgeu(BType),
    Jal(JType), Jalr(IType), Ecall(NoFields),
    Lwu(NoFields), Other(NoFields),
}

// The rest only lets the model generator compile; it is never called.
#[derive(Debug)]
pub struct Segment {
    pub address: u64,
    pub content: Vec<u8>,
}

#[derive(Debug)]
pub struct Program {
    pub is64: bool,
    pub instruction_range: std::ops::Range<u64>,
    pub data: Segment,
}

impl Program {
    pub fn instructions(&self) -> &[u8] {
        &[]
    }
}

pub fn decode(_: u32) -> Result<Instruction, std::fmt::Error> {
    Err(std::fmt::Error)
}
