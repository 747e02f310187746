//! The verified driver on a Zynq-7000: calls of the flash, the stored list of others, then a save whose power is cut
//! after each of its register accesses. `firmware/run` boots it, reads what it prints and cuts the power.
#![no_std]
#![no_main]

mod board;
mod calls;
mod cuts;
mod list;
mod memory;
mod record;
mod stack;
mod start;
mod uart;

use memory::Memory;
use record::Record;

/// Comes here from `start`, after power-on and after every cut.
#[unsafe(no_mangle)]
extern "C" fn main() -> ! {
    uart::enable();
    stack::paint();
    let Memory { log, buffer, list } = memory::lend();
    let mut flash = board::ready(log);
    let next = match Record::take() {
        None => {
            calls::run(&mut flash, buffer);
            list::run(list);
            Some(Record::FIRST)
        }
        Some(record) => cuts::judge(&mut flash, buffer, record),
    };
    match next {
        Some(record) => cuts::cut(flash, record),
        None => start::halt(),
    }
}
