//! One caller: the registers of the function that called, as document 01 has it under "One caller", with the rule of
//! request 03 for the PC that is looked up and that of request 04 for signed return addresses.
//!
//! A window is opened once, by rule 41, and after that every sum that could leave it is caught where it is made.
#![forbid(unsafe_code)]

use super::lookup::{Checked, Outcome};
use super::{rule, Base, Order, Place, Refusal, Row};

/// The registers of one frame, all of them any value.
#[derive(Clone, Copy, Debug, Default, PartialEq, Eq)]
pub struct Registers {
    pub pc: u64,
    pub sp: u64,
    pub fp: u64,
    pub lr: u64,
    /// The first-frame mark: 0 is none, anything else is the mark.
    pub first: u64,
}

impl Registers {
    /// The PC that a step looks up: PC itself with the first-frame mark, and PC minus 1 without it; none where that is
    /// below 0.
    #[inline]
    pub fn looked_up(&self) -> Option<u64> {
        self.pc.checked_sub(u64::from(self.first == 0))
    }
}

/// What is known of the crashed process beside its registers.
#[derive(Clone, Copy, Debug, Default, PartialEq, Eq)]
pub struct Process {
    /// The address of the section.
    pub section: u64,
    /// The address of the stack window's first byte.
    pub stack: u64,
    /// The bits in which a signed return address has its signature; 0 where they are not known.
    pub mask: u64,
}

/// What a step comes to.
#[derive(Clone, Copy, Debug, PartialEq, Eq)]
pub enum Step {
    Caller(Registers),
    /// 1 to 15: the section is refused, with the entry's index.
    Unsound {
        old: Registers,
        number: u64,
        index: u64,
    },
    /// 41, and 21 to 28.
    Refused {
        old: Registers,
        number: u64,
    },
}

impl Step {
    /// Document 01's number; 0 for a caller.
    pub fn number(&self) -> u64 {
        match *self {
            Step::Caller(_) => 0,
            Step::Unsound { number, .. } | Step::Refused { number, .. } => number,
        }
    }
}

/// The caller's registers, or the old ones with the first refusal in document 01's order.
pub fn step(section: &[u8], stack: &[u8], process: Process, registers: Registers) -> Step {
    let Some(window) = Window::open(stack, process.stack) else {
        return Step::Refused { old: registers, number: 41 };
    };
    match Checked::open(section) {
        Ok(checked) => checked.step_in(&window, &process, registers),
        Err(Refusal { number, index }) => Step::Unsound { old: registers, number, index },
    }
}

impl Checked<'_> {
    /// A step in a section that was checked once.
    pub fn step(&self, stack: &[u8], process: Process, registers: Registers) -> Step {
        match Window::open(stack, process.stack) {
            Some(window) => self.step_in(&window, &process, registers),
            None => Step::Refused { old: registers, number: 41 },
        }
    }

    fn step_in(&self, window: &Window, process: &Process, registers: Registers) -> Step {
        match self.caller(window, process, &registers) {
            Ok(caller) => Step::Caller(caller),
            Err(number) => Step::Refused { old: registers, number },
        }
    }

    // Rules 21 to 28. The stack is read behind all of them but the last.
    #[inline]
    pub(super) fn caller(&self, window: &Window, process: &Process, registers: &Registers) -> Result<Registers, u64> {
        let row = self.row_at(process.section, registers.looked_up().ok_or(21_u64)?)?;
        let marked = registers.first != 0;
        rule(24, row.signed && process.mask == 0)?;
        let base = match row.base {
            Base::Fp => registers.fp,
            Base::Sp => registers.sp,
        };
        let cfa = base.checked_add_signed(row.cfa_offset).ok_or(25_u64)?;
        rule(26, cfa < registers.sp || cfa == registers.sp && !marked)?;
        rule(27, row.ra == Place::Register && !marked)?;
        let order = self.order();
        let ra = window.saved(order, row.ra, cfa, registers.lr).ok_or(28_u64)?;
        let fp = window.saved(order, row.fp, cfa, registers.fp).ok_or(28_u64)?;
        // A row of AMD64 is never signed.
        let signature = if row.signed { process.mask } else { 0 };
        Ok(Registers { pc: ra & !signature, sp: cfa, fp, lr: registers.lr, first: 0 })
    }

    fn row_at(&self, address: u64, pc: u64) -> Result<Row, u64> {
        match self.find(address, pc).outcome {
            Outcome::Found { row, .. } => Ok(row),
            Outcome::NoFunction => Err(21),
            Outcome::Disputed { .. } => Err(22),
            Outcome::NoRow { .. } => Err(23),
            Outcome::SectionRefused { .. } => unreachable!("the section was checked before"),
        }
    }
}

/// A stack window that ends at 2^64 or before it.
pub(super) struct Window<'a> {
    stack: &'a [u8],
    address: u64,
}

impl<'a> Window<'a> {
    /// None where address plus length is above 2^64, which is rule 41.
    pub(super) fn open(stack: &'a [u8], address: u64) -> Option<Window<'a>> {
        // The last byte's address may be 2^64 - 1, and a window without bytes has none.
        let last = stack.len().checked_sub(1).map_or(Some(address), |last| address.checked_add(last as u64));
        last.map(|_| Window { stack, address })
    }

    // What a place holds: its register's value, or the word at an offset from CFA; none where a byte of the word is
    // outside the window.
    #[inline]
    fn saved(&self, order: Order, place: Place, cfa: u64, register: u64) -> Option<u64> {
        match place {
            Place::Register => Some(register),
            Place::AtOffset(offset) => self.word(order, cfa.checked_add_signed(offset)?),
        }
    }

    #[inline]
    fn word(&self, order: Order, address: u64) -> Option<u64> {
        let place = usize::try_from(address.checked_sub(self.address)?).ok()?;
        let bytes = self.stack.get(place..)?.first_chunk()?;
        Some(order.word(*bytes))
    }
}

impl Order {
    pub(super) fn word(self, bytes: [u8; 8]) -> u64 {
        match self {
            Order::Little => u64::from_le_bytes(bytes),
            Order::Big => u64::from_be_bytes(bytes),
        }
    }
}
