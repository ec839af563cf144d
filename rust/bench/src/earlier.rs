//! The calls of an earlier library, which `build.rs` links where
//! `LINDYPO_EARLIER` names its archive; without it there is none.

use crate::calls::{Call, Function};

/// The earlier library's call.
pub fn function(call: Call) -> Option<Function> {
    linked::function(call)
}

#[cfg(not(earlier))]
mod linked {
    use super::{Call, Function};

    pub fn function(_: Call) -> Option<Function> {
        None
    }
}

#[cfg(earlier)]
#[allow(unsafe_code)]
mod linked {
    use super::{Call, Function};

    /// A reply with as many fields as an earlier library had: refusal, place,
    /// count and what follows. It is written where the caller says.
    #[repr(C)]
    struct Reply([u64; 8]);

    impl Reply {
        fn count(self) -> usize {
            self.0[2] as usize
        }
    }

    #[repr(C)]
    struct Part {
        _start: u64,
        length: u64,
    }

    type Bytes = *const u8;
    type Cells = *mut i64;

    #[rustfmt::skip]
    extern "C" {
        fn earlier_read(_: Bytes, _: usize, _: Cells, _: usize) -> Reply;
        fn earlier_name(_: Bytes, _: usize, _: Cells, _: usize, _: i64) -> Part;
        fn earlier_plan(_: Bytes, _: usize, _: Cells, _: usize, _: Cells, _: usize) -> Reply;
        fn earlier_run(_: Bytes, _: usize, _: Cells, _: usize, _: Cells, _: usize, _: Cells, _: usize) -> Reply;
        fn earlier_follow(_: Bytes, _: usize, _: *const i64, _: usize, _: Cells, _: usize, _: Cells, _: usize) -> Reply;
    }

    /// A slice as a pointer and a length, and then the rest of the arguments.
    macro_rules! lend {
        ($call:ident ($($slice:ident.$pointer:ident),+ $(; $more:expr)?)) => {
            // SAFETY: as in `lindypo::raw`: each pointer and length are those
            // of a slice, and what is written to is lent to the call alone.
            unsafe { lend!(@ $call [] $($slice.$pointer),+ $(; $more)?) }
        };
        (@ $call:ident [$($done:expr,)*] $slice:ident.$pointer:ident $(, $next:ident.$to:ident)* $(; $more:expr)?) => {
            lend!(@ $call [$($done,)* $slice.$pointer(), $slice.len(),] $($next.$to),* $(; $more)?)
        };
        (@ $call:ident [$($done:expr,)*] $(; $more:expr)?) => {
            $call($($done,)* $($more)?)
        };
    }

    pub fn function(call: Call) -> Option<Function> {
        let function: Function = match call {
            Call::Read => |lent| {
                let (text, table) = (lent.text, lent.table);
                lend!(earlier_read(text.as_ptr, table.as_mut_ptr)).count()
            },
            Call::Name => |lent| {
                let (text, table) = (lent.text, lent.table);
                lend!(earlier_name(text.as_ptr, table.as_mut_ptr; lent.label)).length as usize
            },
            Call::Plan => |lent| {
                let (text, table, plan) = (lent.text, lent.table, lent.plan);
                lend!(earlier_plan(text.as_ptr, table.as_mut_ptr, plan.as_mut_ptr)).count()
            },
            Call::Run => |lent| {
                let (text, table, plan, results) = (lent.text, lent.table, lent.plan, lent.results);
                lend!(earlier_run(
                    text.as_ptr,
                    table.as_mut_ptr,
                    plan.as_mut_ptr,
                    results.as_mut_ptr
                ))
                .count()
            },
            Call::Follow => |lent| {
                let (text, order, table, results) =
                    (lent.text, lent.order, lent.table, lent.results);
                lend!(earlier_follow(
                    text.as_ptr,
                    order.as_ptr,
                    table.as_mut_ptr,
                    results.as_mut_ptr
                ))
                .count()
            },
            Call::Retouch => return retouch(),
        };
        Some(function)
    }

    #[cfg(earlier_retouch)]
    fn retouch() -> Option<Function> {
        #[rustfmt::skip]
        extern "C" {
            fn earlier_retouch(_: Bytes, _: usize, _: *const i64, _: usize, _: Cells, _: usize, _: Cells, _: usize, _: Cells, _: usize, _: Cells, _: usize) -> Reply;
        }
        Some(|lent| {
            let (text, pairs, changes) = (lent.text, lent.pairs, lent.changes);
            let (table, plan, results) = (lent.table, lent.plan, lent.results);
            lend!(earlier_retouch(
                text.as_ptr,
                pairs.as_ptr,
                table.as_mut_ptr,
                plan.as_mut_ptr,
                results.as_mut_ptr,
                changes.as_mut_ptr
            ))
            .count()
        })
    }

    /// Before order 4 there was none.
    #[cfg(not(earlier_retouch))]
    fn retouch() -> Option<Function> {
        None
    }
}
