//! The bus in memory, and buses over others.

use core::ops::ControlFlow;
use qspi_flash::{Budget, Bus, Call, Registers, Waiting, log_words};

#[test]
fn every_offset_is_a_register_of_the_block() {
    for offset in 0..=u8::MAX {
        let before: [u32; 64] = core::array::from_fn(|at| 0x0101_0101 * at as u32);
        let mut block = before;
        // SAFETY: the block has 256 bytes, and nobody else looks at them while the bus is in use.
        let mut bus = unsafe { Registers::new(&raw mut block as usize) };
        let register = usize::from(offset) / 4;
        assert_eq!(bus.read(offset), before[register]);
        bus.write(offset, 0xA5A5_5A5A);
        assert_eq!(bus.read(offset), 0xA5A5_5A5A);
        let mut after = before;
        after[register] = 0xA5A5_5A5A;
        assert_eq!(block, after, "offset {offset:02X}");
    }
}

/// Says what it is asked.
struct Told(Vec<String>);

impl Bus for Told {
    fn read(&mut self, offset: u8) -> u32 {
        self.0.push(format!("read {offset}"));
        7
    }

    fn write(&mut self, offset: u8, value: u32) {
        self.0.push(format!("write {offset} {value}"));
    }

    fn wait(&mut self, busy: u32) -> ControlFlow<()> {
        self.0.push(format!("wait {busy}"));
        ControlFlow::Break(())
    }
}

fn use_all(mut bus: impl Bus) -> (u32, ControlFlow<()>) {
    let word = bus.read(4);
    bus.write(20, 1);
    (word, bus.wait(3))
}

#[test]
fn a_lent_bus_is_the_bus() {
    let mut told = Told(Vec::new());
    assert_eq!(use_all(&mut told), (7, ControlFlow::Break(())));
    assert_eq!(told.0, ["read 4", "write 20 1", "wait 3"]);
}

#[test]
fn a_bus_with_a_way_to_wait_asks_it_alone() {
    let (mut told, mut waited) = (Told(Vec::new()), Vec::new());
    let wait = |busy| {
        waited.push(busy);
        ControlFlow::Continue(())
    };
    assert_eq!(use_all(Waiting { bus: &mut told, wait }), (7, ControlFlow::Continue(())));
    assert_eq!((told.0, waited), (vec!["read 4".to_owned(), "write 20 1".to_owned()], vec![3]));
}

#[test]
fn a_log_that_no_machine_has_is_the_longest() {
    let most = Budget { looks: u32::MAX, busy: u32::MAX };
    for length in [usize::MAX, usize::MAX - 1, usize::MAX / 2] {
        for call in [
            Call::Program(length),
            Call::WritePages(length),
            Call::ReadPageRead(length),
            Call::ReadFastRead(length, true),
        ] {
            assert_eq!(log_words(call, most), usize::MAX, "{call:?}");
        }
    }
}
