//! Prints the size of every struct of the Rust bindings and the place of every field in it, in the order of layout.c.

use gjalvorn::raw::{
    AnswerRecord, Answered, Batched, EventValue, Found, Held, Ledger, Lock, Outcome, ReasonFound,
    Sizes, System, SystemRead, Table,
};
use std::mem::{size_of, MaybeUninit};
use std::ptr::addr_of;

// Rust 1.63 has no offset_of!. The pattern makes the compiler refuse a list that leaves a field out.
macro_rules! layout {
    ($name:ident: $($field:ident),+) => {
        let _every_field = |$name { $($field: _),+ }: $name| ();
        println!("{} {}", stringify!($name), size_of::<$name>());
        let place = MaybeUninit::<$name>::uninit();
        let start = place.as_ptr();
        $(
            // SAFETY: the field's address is taken and nothing is read.
            let field = unsafe { addr_of!((*start).$field) };
            println!("{}.{} {}", stringify!($name), stringify!($field), field as usize - start as usize);
        )+
    };
}

fn main() {
    layout!(Sizes: cores, gangs, threads);
    layout!(Table: sizes, priority, budget, gang, core);
    layout!(Ledger: number, served, skipped, job);
    layout!(Lock: holder, locked, blocked, owing, occupant);
    layout!(Held: holder, locked, blocked, owing);
    layout!(System: table, state, ledger, lock, kept);
    layout!(AnswerRecord: refusal, value, number, owing, locked);
    layout!(Answered: system, answer);
    layout!(Outcome: holder, blocked, answer);
    layout!(EventValue: kind, number, transactions);
    layout!(Found: refusal, value);
    layout!(ReasonFound: refusal, reason, which);
    layout!(SystemRead: system, number, place);
    layout!(Batched: system, read, written, number);
}
