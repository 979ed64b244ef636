//! Instructions with yogi's names. A word has the opcode in its upper 6 bits, then three fields of 16 bits, then 10 zero bits.

use std::fmt;

macro_rules! numbered {
    ($($name:ident $what:literal)*) => {
        $(
            #[derive(Debug, Clone, Copy, PartialEq, Eq, PartialOrd, Ord, Hash)]
            pub struct $name(pub u16);

            impl fmt::Display for $name {
                fn fmt(&self, f: &mut fmt::Formatter) -> fmt::Result {
                    write!(f, concat!($what, "{}"), self.0)
                }
            }
        )*
    };
}

numbered! {
    NumReg "n"
    StrReg "s"
    ValReg "v"
    Section "section "
}

macro_rules! instructions {
    ($($opcode:literal $name:ident($($field:ident: $kind:ident),+))*) => {
        /// An instruction: yogi's, in the order in which yogi declares them.
        #[derive(Debug, Clone, Copy, PartialEq, Eq, Hash)]
        pub enum Instruction {
            $($name($($kind),+),)*
        }

        impl Instruction {
            /// The instruction of a word, unless it breaks the rules: no such opcode, or something in a field or bit that is not used.
            pub fn of_word(word: u64) -> Option<Instruction> {
                let mut fields = [(word >> 42) as u16, (word >> 26) as u16, (word >> 10) as u16].into_iter();
                let instruction = match word >> 58 {
                    $($opcode => Instruction::$name($($kind(fields.next()?)),+),)*
                    _ => return None,
                };
                (instruction.word() == word).then_some(instruction)
            }

            pub fn word(self) -> u64 {
                let (opcode, fields): (u64, &[u16]) = match self {
                    $(Instruction::$name($($field),+) => ($opcode, &[$($field.0),+]),)*
                };
                let field = |i: usize| u64::from(fields.get(i).copied().unwrap_or(0));
                opcode << 58 | field(0) << 42 | field(1) << 26 | field(2) << 10
            }

            pub fn name(self) -> &'static str {
                match self {
                    $(Instruction::$name(..) => stringify!($name),)*
                }
            }
        }

        impl fmt::Display for Instruction {
            fn fmt(&self, f: &mut fmt::Formatter) -> fmt::Result {
                f.write_str(self.name())?;
                match self {
                    $(Instruction::$name($($field),+) => {
                        $(write!(f, " {}", $field)?;)+
                        Ok(())
                    })*
                }
            }
        }
    };
}

instructions! {
    0 JumpSectionIf(a: Section, b: NumReg)
    1 JumpIfError(a: Section)
    2 CopyNum(a: NumReg, b: NumReg)
    3 CopyStr(a: StrReg, b: StrReg)
    4 CopyVal(a: ValReg, b: ValReg)
    5 ValueifyNum(a: NumReg, b: ValReg)
    6 ValueifyStr(a: StrReg, b: ValReg)
    7 NumberifyVal(a: ValReg, b: NumReg)
    8 StringifyNum(a: NumReg, b: StrReg)
    9 StringifyVal(a: ValReg, b: StrReg)
    10 IsTruthyNum(a: NumReg)
    11 IsTruthyVal(a: ValReg, b: NumReg)
    12 NotNum(a: NumReg)
    13 NotVal(a: ValReg, b: NumReg)
    14 AddNum(a: NumReg, b: NumReg)
    15 AddSelfNum(a: NumReg)
    16 AddStr(a: StrReg, b: StrReg)
    17 AddSelfStr(a: StrReg)
    18 AddVal(a: ValReg, b: ValReg)
    19 AddSelfVal(a: ValReg)
    20 SubNum(a: NumReg, b: NumReg)
    21 SubStr(a: StrReg, b: StrReg)
    22 SubVal(a: ValReg, b: ValReg)
    23 SubSelfVal(a: ValReg)
    24 Mul(a: NumReg, b: NumReg)
    25 MulSelf(a: NumReg)
    26 Div(a: NumReg, b: NumReg)
    27 DivSelf(a: NumReg)
    28 Rem(a: NumReg, b: NumReg)
    29 RemSelf(a: NumReg)
    30 Pow(a: NumReg, b: NumReg)
    31 PowSelf(a: NumReg)
    32 Eq(a: ValReg, b: ValReg, c: NumReg)
    33 Le(a: ValReg, b: ValReg, c: NumReg)
    34 Lt(a: ValReg, b: ValReg, c: NumReg)
    35 IncNum(a: NumReg)
    36 IncStr(a: StrReg)
    37 IncVal(a: ValReg)
    38 DecNum(a: NumReg)
    39 DecStr(a: StrReg)
    40 DecVal(a: ValReg)
    41 Abs(a: NumReg)
    42 Fact(a: NumReg)
    43 Sqrt(a: NumReg)
    44 Sin(a: NumReg)
    45 Cos(a: NumReg)
    46 Tan(a: NumReg)
    47 Asin(a: NumReg)
    48 Acos(a: NumReg)
    49 Atan(a: NumReg)
    50 Neg(a: NumReg)
    51 And(a: NumReg, b: NumReg)
    52 Or(a: NumReg, b: NumReg)
}

impl Instruction {
    /// Where a jump leads, and nothing for another instruction.
    pub fn target(self) -> Option<Section> {
        match self {
            Instruction::JumpSectionIf(section, _) | Instruction::JumpIfError(section) => Some(section),
            _ => None,
        }
    }
}
