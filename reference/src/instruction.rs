//! The instructions and the operands that each of them takes, in order.

#[derive(Clone, Copy, PartialEq, Eq, Debug)]
pub enum Width {
    W16,
    W32,
}

impl Width {
    pub fn bits(self) -> u32 {
        match self {
            Width::W16 => 16,
            Width::W32 => 32,
        }
    }

    /// D words that a number of this width takes.
    pub fn words(self) -> u32 {
        self.bits() / 16
    }

    /// The largest n of a group of 4n bits.
    pub fn largest_group(self) -> u8 {
        match self {
            Width::W16 => 4,
            Width::W32 => 8,
        }
    }
}

/// What an operand of an instruction must look like.
#[derive(Clone, Copy, PartialEq, Eq, Debug)]
pub enum Shape {
    /// Unused: six zeros.
    Unused,
    /// A bit that is read: X, Y, M, SM, T.
    Contact,
    /// A bit that is written: Y, M.
    Coil,
    Source(Width),
    Target(Width),
    /// A target that is also read (INC and its kin).
    Both(Width),
    /// Quotient and remainder of a division: D only, twice the width's words.
    Quotient(Width),
    Timer,
    /// The constant of a timer, 1 to 32767.
    Preset,
    /// The passes of a FOR, 0 to 32767.
    Passes,
    Label,
}

macro_rules! instructions {
    ($($name:ident = $number:literal, $text:literal;)*) => {
        #[derive(Clone, Copy, PartialEq, Eq, Debug)]
        pub enum Instruction { $($name,)* }

        impl Instruction {
            pub const ALL: &'static [Instruction] = &[$(Instruction::$name,)*];

            pub fn from_number(number: u8) -> Option<Instruction> {
                match number {
                    $($number => Some(Instruction::$name),)*
                    _ => None,
                }
            }

            pub fn number(self) -> u8 {
                match self { $(Instruction::$name => $number,)* }
            }

            pub fn name(self) -> &'static str {
                match self { $(Instruction::$name => $text,)* }
            }
        }
    };
}

instructions! {
    Nop = 0, "NOP"; Ld = 1, "LD"; Ldi = 2, "LDI"; And = 3, "AND"; Ani = 4, "ANI";
    Or = 5, "OR"; Ori = 6, "ORI"; Anb = 7, "ANB"; Orb = 8, "ORB"; Mps = 9, "MPS";
    Mrd = 10, "MRD"; Mpp = 11, "MPP"; Out = 12, "OUT"; Set = 13, "SET"; Rst = 14, "RST";
    LdEqual = 15, "LD="; LdAbove = 16, "LD>"; LdBelow = 17, "LD<"; Ton = 18, "TON";
    For = 19, "FOR"; Next = 20, "NEXT"; Cj = 21, "CJ"; Lbl = 22, "LBL"; End = 23, "END";
    Mov = 32, "MOV"; Add = 33, "ADD"; Sub = 34, "SUB"; Div = 35, "DIV"; Sqt = 36, "SQT";
    Inc = 37, "INC"; Dec = 38, "DEC"; Vabs = 39, "VABS"; Neg = 40, "NEG";
    Dmov = 48, "DMOV"; Dadd = 49, "DADD"; Dsub = 50, "DSUB"; Dmul = 51, "DMUL";
    Ddiv = 52, "DDIV"; Dsqt = 53, "DSQT"; Dinc = 54, "DINC"; Ddec = 55, "DDEC";
}

impl Instruction {
    pub fn shapes(self) -> [Shape; 3] {
        use Instruction::*;
        use Shape::*;
        use Width::*;
        match self {
            Nop | Anb | Orb | Mps | Mrd | Mpp | Next | End => [Unused; 3],
            Ld | Ldi | And | Ani | Or | Ori => [Contact, Unused, Unused],
            Out | Set | Rst => [Coil, Unused, Unused],
            LdEqual | LdAbove | LdBelow => [Source(W16), Source(W16), Unused],
            Ton => [Timer, Preset, Unused],
            For => [Passes, Unused, Unused],
            Cj | Lbl => [Label, Unused, Unused],
            Mov | Sqt | Vabs | Neg => [Source(W16), Target(W16), Unused],
            Add | Sub => [Source(W16), Source(W16), Target(W16)],
            Div => [Source(W16), Source(W16), Quotient(W16)],
            Inc | Dec => [Both(W16), Unused, Unused],
            Dmov | Dsqt => [Source(W32), Target(W32), Unused],
            Dadd | Dsub | Dmul => [Source(W32), Source(W32), Target(W32)],
            Ddiv => [Source(W32), Source(W32), Quotient(W32)],
            Dinc | Ddec => [Both(W32), Unused, Unused],
        }
    }

    pub fn is_load(self) -> bool {
        use Instruction::*;
        matches!(self, Ld | Ldi | LdEqual | LdAbove | LdBelow)
    }

    pub fn is_action(self) -> bool {
        matches!(self.number(), 12..=14 | 18 | 32..)
    }

    /// 19 to 23: after them flow is absent.
    pub fn ends_flow(self) -> bool {
        matches!(self.number(), 19..=23)
    }
}

#[cfg(test)]
mod tests {
    use super::*;

    #[test]
    fn numbers_round() {
        for number in 0..=255u8 {
            let known = matches!(number, 0..=23 | 32..=40 | 48..=55);
            match Instruction::from_number(number) {
                Some(instruction) => assert!(known && instruction.number() == number),
                None => assert!(!known),
            }
        }
        assert_eq!(Instruction::ALL.len(), 24 + 9 + 8);
    }
}
