//! The machine as one would write it in plain Rust: what the proved one is compared with and timed against.

pub const WORDS: usize = 16_384;
const ADDRESS: u16 = 0o37777;
const SIGN: u16 = 0o100000;

#[derive(Clone, Copy, Debug, PartialEq)]
pub enum Outcome {
    Halted,
    Spent,
    Failed(u32),
}

#[derive(Clone, Copy, Debug, PartialEq)]
pub struct Machine {
    pub a: u16,
    pub b: u16,
    pub c: bool,
    pub p: u16,
    pub switches: [bool; 4],
    pub halted: bool,
}

/// The steps of all runs, and those of each cooperative.
#[derive(Clone, Copy, Debug, PartialEq)]
pub struct Clock {
    pub common: u32,
    pub counts: [u32; 16],
}

#[derive(Clone, Copy)]
pub struct Request {
    pub budget: u32,
    pub cooperative: u32,
}

#[derive(Clone, Copy, Debug, PartialEq)]
pub struct Report {
    pub outcome: Outcome,
    pub steps: u32,
}

type Image = [u16; WORDS];

/// A run of up to the budget's steps.
#[inline(never)]
pub fn run(image: &mut [u16], m: &mut Machine, clock: &mut Clock, request: Request) -> Report {
    let refused = |number| Report { outcome: Outcome::Failed(number), steps: 0 };
    let Some(count) = clock.counts.get_mut(request.cooperative as usize) else {
        return refused(27);
    };
    let Ok(image) = <&mut Image>::try_from(image) else {
        return refused(1);
    };
    if m.p > ADDRESS {
        return refused(23);
    }
    if request.budget > 1_000_000 {
        return refused(22);
    }
    let report = steps(image, m, request.budget);
    *count = count.wrapping_add(report.steps);
    clock.common = clock.common.wrapping_add(report.steps);
    report
}

pub fn due(clock: u32, deadline: u32) -> bool {
    clock.wrapping_sub(deadline) < 1 << 31
}

fn steps(image: &mut Image, m: &mut Machine, budget: u32) -> Report {
    let mut steps = 0;
    let outcome = loop {
        if m.halted {
            break Outcome::Halted;
        }
        if steps == budget {
            break Outcome::Spent;
        }
        if let Err(number) = step(image, m) {
            break Outcome::Failed(number);
        }
        steps += 1;
    };
    Report { outcome, steps }
}

fn step(image: &mut Image, m: &mut Machine) -> Result<(), u32> {
    let w = image[(m.p & ADDRESS) as usize];
    if w >> 10 & 15 != 0 {
        memory(image, m, w)
    } else if w >> 14 == 1 {
        shift(m, w)
    } else {
        generic(m, w)
    }
}

fn skip(m: &mut Machine, words: u16) {
    m.p = m.p + 1 + words & ADDRESS;
}

fn add(m: &mut Machine, v: u16) {
    m.c = (m.a as i16).overflowing_add(v as i16).1;
    m.a = m.a.wrapping_add(v);
}

fn subtract(m: &mut Machine, v: u16) {
    m.c = (m.a as i16).overflowing_sub(v as i16).1;
    m.a = m.a.wrapping_sub(v);
}

/// A and the low 15 bits of B as one signed number.
fn double(m: &Machine) -> i32 {
    m.a as i16 as i32 * 32768 + (m.b & !SIGN) as i32
}

fn multiply(m: &mut Machine, v: u16) {
    let product = m.a as i16 as i32 * v as i16 as i32;
    m.a = (product >> 15) as u16;
    m.b = product as u16 & !SIGN;
}

fn divide(m: &mut Machine, v: u16) {
    let (dividend, divisor) = (double(m), v as i16 as i32);
    match dividend.checked_div(divisor).and_then(|quotient| i16::try_from(quotient).ok()) {
        Some(quotient) => {
            m.a = quotient as u16;
            m.b = (dividend % divisor) as u16;
            m.c = false;
        }
        None => m.c = true,
    }
}

fn indexed(image: &Image, at: u16, tag: bool) -> u16 {
    if tag { at.wrapping_add(image[0]) & ADDRESS } else { at }
}

/// The effective address, after at most 16 indirect words.
fn effective(image: &Image, mut at: u16, mut indirect: bool) -> Result<u16, u32> {
    let mut passed = 0;
    while indirect {
        if passed == 16 {
            return Err(21);
        }
        passed += 1;
        let w = image[at as usize & (WORDS - 1)];
        at = indexed(image, w & ADDRESS, w & 0o40000 != 0);
        indirect = w & SIGN != 0;
    }
    Ok(at)
}

fn memory(image: &mut Image, m: &mut Machine, w: u16) -> Result<(), u32> {
    let code = w >> 10 & 15;
    let tag = w & 0o40000 != 0;
    let ldx = code == 0o15 && tag;
    if (0o13..=0o15).contains(&code) && !ldx {
        return Err(20);
    }
    let sector = if w & 0o1000 != 0 { m.p & 0o37000 } else { 0 };
    let first = indexed(image, sector | w & 0o777, tag && !ldx);
    let at = effective(image, first, w & SIGN != 0)?;
    let cell = &mut image[at as usize & (WORDS - 1)];
    let v = *cell;
    match code {
        0o1 => {
            m.p = at;
            return Ok(());
        }
        0o2 => m.a = v,
        0o3 => m.a &= v,
        0o4 => *cell = m.a,
        0o5 => m.a ^= v,
        0o6 => add(m, v),
        0o7 => subtract(m, v),
        0o10 => {
            *cell = v & !ADDRESS | m.p + 1 & ADDRESS;
            m.p = at;
        }
        0o11 => {
            let (a, v) = (m.a as i16, v as i16);
            skip(m, if a > v { 0 } else if a == v { 1 } else { 2 });
            return Ok(());
        }
        0o12 => {
            *cell = v.wrapping_add(1);
            if *cell == 0 {
                skip(m, 1);
                return Ok(());
            }
        }
        0o16 => multiply(m, v),
        0o17 => divide(m, v),
        _ => image[0] = v,
    }
    skip(m, 0);
    Ok(())
}

fn shift(m: &mut Machine, w: u16) -> Result<(), u32> {
    let n = 64 - (w & 63) as u32;
    if n > 15 {
        return Err(20);
    }
    let a = m.a;
    let (c, a) = match w >> 6 {
        0o401 if n == 15 => {
            m.b = a & !SIGN;
            (m.c, (a as i16 >> 15) as u16)
        }
        0o411 if n == 15 => {
            let moved = double(m);
            m.b = 0;
            (i16::try_from(moved).is_err(), moved as u16)
        }
        0o404 => (a >> (n - 1) & 1 == 1, a >> n),
        0o405 => (a >> (n - 1) & 1 == 1, (a as i16 >> n) as u16),
        0o406 => (a >> (n - 1) & 1 == 1, a.rotate_right(n)),
        0o414 => (a >> (16 - n) & 1 == 1, a << n),
        0o415 => ((a << n) as i16 >> n != a as i16, a << n),
        0o416 => (a >> (16 - n) & 1 == 1, a.rotate_left(n)),
        _ => return Err(20),
    };
    m.c = c;
    m.a = a;
    skip(m, 0);
    Ok(())
}

fn generic(m: &mut Machine, w: u16) -> Result<(), u32> {
    let Machine { a, c, switches, .. } = *m;
    let any = switches.contains(&true);
    let skips = match w {
        0o000000 => {
            m.halted = true;
            false
        }
        0o100000 => true,
        0o101000 => false,
        0o100001 => !c,
        0o101001 => c,
        0o101020 => switches[0],
        0o101010 => switches[1],
        0o101004 => switches[2],
        0o101002 => switches[3],
        0o101036 => any,
        0o100036 => !any,
        0o100040 => a == 0,
        0o101040 => a != 0,
        0o100400 => a & SIGN == 0,
        0o101400 => a & SIGN != 0,
        0o100100 => a & 1 == 0,
        0o101100 => a & 1 == 1,
        _ => return unary(m, w),
    };
    skip(m, skips as u16);
    Ok(())
}

// Kept out of the loop of `steps`: inlined there, it makes the nested FOR take nearly twice the time.
#[inline(never)]
fn unary(m: &mut Machine, w: u16) -> Result<(), u32> {
    let a = m.a;
    match w {
        0o140040 => m.a = 0,
        0o140401 => m.a = !a,
        0o140407 => m.a = a.wrapping_neg(),
        0o140024 => m.a = a ^ SIGN,
        0o140100 => m.a = a & !SIGN,
        0o140500 => m.a = a | SIGN,
        0o140320 => {
            m.c = a & SIGN != 0;
            m.a = a & !SIGN;
        }
        0o141044 => m.a = a & 0o177400,
        0o141050 => m.a = a & 0o377,
        0o141140 => m.a = a >> 8,
        0o141206 => add(m, 1),
        0o141216 => add(m, m.c as u16),
        0o141240 => m.a = a << 8,
        0o141340 => m.a = a.rotate_left(8),
        0o000201 => (m.a, m.b) = (m.b, m.a),
        _ => return Err(20),
    }
    skip(m, 0);
    Ok(())
}
