//! What the calls answer: as the C interface has it, and as a `Result`.

use crate::Order;

/// A refusal: its number and its place in document 01's table and those of
/// document 02's orders.
#[derive(Debug, Clone, Copy, PartialEq, Eq)]
pub struct Refusal {
    /// 1 to 21.
    pub number: u64,
    /// 0 for the text as a whole (1 to 3) and for a list of pairs as a whole
    /// (19); the buffer that is too short (4): 1 table, 2 plan, 3 results, 4
    /// changes; a label (5 to 16); a position in the order list, counted from 1
    /// (17 and 18); a pair of the list, counted from 1 (20 and 21).
    pub place: u64,
}

/// A reply as the C interface gives it.
#[derive(Debug, Clone, Copy, PartialEq, Eq)]
#[repr(C)]
pub struct Reply {
    /// 0 where the call answered.
    pub refusal: u64,
    pub place: u64,
    /// The number of labels from Read, the length of the plan from Plan, Run
    /// and Retouch, that of the order list from Follow; 0 where the call refused.
    pub count: u64,
    /// 1 whole, 2 mixed; 0 where the call refused or plans nothing.
    pub order: u64,
}

impl Reply {
    /// The count that was answered, or the refusal.
    pub(crate) fn counted(self) -> Result<usize, Refusal> {
        match self.refusal {
            0 => Ok(self.count as usize),
            number => Err(Refusal {
                number,
                place: self.place,
            }),
        }
    }

    /// As `counted`, with the order of the plan.
    pub(crate) fn planned(self) -> Result<(usize, Order), Refusal> {
        let order = match self.order {
            1 => Order::Whole,
            _ => Order::Mixed,
        };
        self.counted().map(|count| (count, order))
    }
}

/// A part of a text as the C interface gives it; 0, 0 when empty.
#[derive(Debug, Clone, Copy, PartialEq, Eq)]
#[repr(C)]
pub struct Part {
    pub start: u64,
    pub length: u64,
}

impl Part {
    pub(crate) fn of(self, text: &[u8]) -> &[u8] {
        &text[self.start as usize..][..self.length as usize]
    }
}

/// What the program's print comes to, as the C interface gives it.
#[derive(Debug, Clone, Copy, PartialEq, Eq)]
#[repr(C)]
pub struct Printed {
    /// Run's refusal, 0 where it answers, and its place.
    pub refusal: u64,
    pub place: u64,
    /// Bytes of the whole print, whether or not the buffer had room for them.
    pub length: u64,
}

impl Printed {
    /// The refusal that is printed, if it is one.
    pub fn refused(self) -> Option<Refusal> {
        let Printed { refusal, place, .. } = self;
        let number = refusal;
        (number != 0).then_some(Refusal { number, place })
    }
}
