//! What is timed: three programs laid as the compiler lays them, each in a `.WHILE` that never ends.

use crate::plain::WORDS;

const INDIRECT: u16 = 0o100000;
const JMP: u16 = 0o2000;
const LDA: u16 = 0o4000;
const STA: u16 = 0o10000;
const ADD: u16 = 0o14000;
const JST: u16 = 0o20000;
const IRS: u16 = 0o24000;
const LDX: u16 = 0o72000;
const HLT: u16 = 0o000000;
const SZE: u16 = 0o100040;
const CRA: u16 = 0o140040;
const AOA: u16 = 0o141206;

const GLOBALS: u16 = 0o200;
const CODE: u16 = 0o1000;

pub struct Program {
    pub name: &'static str,
    pub image: Vec<u16>,
    pub entry: u16,
}

/// An instruction at an address of sector 0 or of the sector that it stands in.
fn at(instruction: u16, address: u16) -> u16 {
    let sector = if address < 0o1000 { 0 } else { 0o1000 };
    instruction + sector + address % 0o1000
}

fn laid(name: &'static str, globals: &[u16], code: &[u16], entry: u16) -> Program {
    let mut image = vec![0; WORDS];
    image[GLOBALS as usize..][..globals.len()].copy_from_slice(globals);
    image[CODE as usize..][..code.len()].copy_from_slice(code);
    Program { name, image, entry }
}

/// SUM = .ZERO; .FOR I = -1000 .DO SUM = SUM + T[I]
fn array_sum() -> Program {
    const SUM: u16 = GLOBALS;
    const I: u16 = GLOBALS + 1;
    const T: u16 = GLOBALS + 2;
    const ELEMENT_0: u16 = 16_383;
    let code = [
        CRA,
        SZE,
        at(JMP, 0o1016),
        CRA,
        at(STA, SUM),
        at(LDA, 0o1017),
        at(STA, I),
        at(LDA, SUM),
        at(LDX, I),
        at(INDIRECT + ADD, T),
        at(STA, SUM),
        at(IRS, I),
        at(JMP, 0o1007),
        at(JMP, 0o1000),
        HLT,
        -1000i16 as u16,
    ];
    let mut program = laid("array sum", &[0, 0, 0o40000 + ELEMENT_0], &code, CODE);
    for k in 1..=1000 {
        program.image[(ELEMENT_0 - k) as usize] = k;
    }
    program
}

/// .FOR I = -100 .DO .FOR J = -100 .DO N = N + 1
fn nested_for() -> Program {
    const I: u16 = GLOBALS;
    const J: u16 = GLOBALS + 1;
    const N: u16 = GLOBALS + 2;
    let code = [
        CRA,
        SZE,
        at(JMP, 0o1017),
        at(LDA, 0o1020),
        at(STA, I),
        at(LDA, 0o1020),
        at(STA, J),
        at(LDA, N),
        at(ADD, 0o1021),
        at(STA, N),
        at(IRS, J),
        at(JMP, 0o1007),
        at(IRS, I),
        at(JMP, 0o1005),
        at(JMP, 0o1000),
        HLT,
        -100i16 as u16,
        1,
    ];
    laid("nested FOR", &[0, 0, 0], &code, CODE)
}

/// .PROCEDURE P; N = .INC N. .PROCEDURE Q; P, P. .PROCEDURE R; Q, Q. The main body calls R.
fn calls() -> Program {
    const N: u16 = GLOBALS;
    const P: u16 = GLOBALS + 1;
    const Q: u16 = GLOBALS + 2;
    const R: u16 = GLOBALS + 3;
    let code = [
        0,
        at(LDA, N),
        AOA,
        at(STA, N),
        at(INDIRECT + JMP, 0o1000),
        0,
        at(INDIRECT + JST, P),
        at(INDIRECT + JST, P),
        at(INDIRECT + JMP, 0o1005),
        0,
        at(INDIRECT + JST, Q),
        at(INDIRECT + JST, Q),
        at(INDIRECT + JMP, 0o1011),
        CRA,
        SZE,
        at(JMP, 0o1022),
        at(INDIRECT + JST, R),
        at(JMP, 0o1015),
        HLT,
    ];
    laid("chain of calls", &[0, 0o1000, 0o1005, 0o1011], &code, 0o1015)
}

pub fn all() -> [Program; 3] {
    [array_sum(), nested_for(), calls()]
}
