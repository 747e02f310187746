//! Both recorders see the same accesses of the same published text.

use call::{Call, Clocks};
use driver::Source;
use driver_lean::Driver;

/// A controller that is never late, with a config register and replies that count up.
#[derive(Default)]
struct Prompt {
    config: u32,
    sent: u32,
    waiting: u32,
    reply: u32,
}

impl Source for Prompt {
    fn read(&mut self, offset: u32) -> Option<u32> {
        Some(match offset {
            0x04 => u32::from(self.waiting > 0) << 4,
            0x20 => {
                self.waiting -= 1;
                self.reply = self.reply.wrapping_add(0x0004_0302) & 0x80FF_FFFF;
                self.reply
            }
            _ => self.config,
        })
    }

    fn write(&mut self, offset: u32, value: u32) {
        match offset {
            0x00 => {
                self.config = value & !0x1_0000;
                self.waiting += if value == self.config { 0 } else { std::mem::take(&mut self.sent) };
            }
            0x1C | 0x80 | 0x84 | 0x88 => self.sent += 1,
            _ => {}
        }
    }
}

fn calls() -> Vec<Call> {
    let data = (0..240).collect::<Vec<u8>>();
    let clocks = Clocks { io_ref_clk: 1_000_000_000, arm_ref_clk: 7, ddr_ref_clk: 9, cpu_1x_clk: 3 };
    vec![
        Call::Calculate { src_sel: 0, clocks, target_ref: 200_000_000, target_interface: 5_000_000 },
        Call::CalculateWithLoopback { src_sel: 2, clocks, target_interface: 1 },
        Call::LinearModeConfig { micron: true, operating_mode: 0xEB, two_devices: true },
        Call::Initialize { src_sel: 2, ref_clk_div: 5, baud_rate_div: None, phase: true, polarity: true },
        Call::EnableLinearAddressing { config: 0x1234_5678 },
        Call::EnableIoMode { dual_flash: true },
        Call::Disable,
        Call::New { set_quad: true, latency: Some(1), clear_protection: true },
        Call::WriteEnable,
        Call::WriteDisable,
        Call::ClearStatus,
        Call::WriteStatus { sr: 0x1C },
        Call::WriteStatusAndConfigRegister { sr: 0x1C, cr: 2 },
        Call::ReadStatusRegister1,
        Call::ReadConfigurationRegister,
        Call::ReadRdidBase,
        Call::ReadRdidExtended,
        Call::EraseSector { addr: 0x03_0000 },
        Call::Program { addr: 0x100, data: data.clone() },
        Call::WritePages { addr: 0x200, data },
        Call::ReadPageRead { addr: 0x102, length: 300 },
        Call::ReadFastRead { addr: 0x102, dummy_byte: true, length: 300 },
    ]
}

#[test]
fn both_recorders_see_the_same() {
    let mut lean = Driver::new();
    for call in calls() {
        let mut buffers = [[0xEE; 300]; 2];
        let ran = driver::run(&call, Box::<Prompt>::default(), usize::MAX, &mut buffers[0]);
        let reads = ran.log.chunks(2).filter(|access| access[0] >= 0x100);
        let replies = reads.map(|access| access[1]).collect::<Vec<_>>();
        let mut log = vec![0; ran.log.len()];
        let (answer, values) = lean.call(&call, &replies, &mut log, &mut buffers[1]);
        assert_eq!((answer, values.as_slice()), (ran.ended.answer, &*ran.ended.values), "{call:?}");
        assert_eq!((&log, buffers[1]), (&ran.log, buffers[0]), "{call:?}");
        let ended = (ran.ended.answer, ran.ended.used, ran.ended.replies);
        assert_eq!(lean.run(&call, &replies, &mut log, &mut buffers[1]), ended, "{call:?}");
        assert_eq!(driver_lean::run(&call, &replies, &mut log, &mut buffers[1]), ended, "{call:?}");
        assert_eq!(driver::Bench::new(replies, log.len()).run(&call, &mut buffers[0]), ended, "{call:?}");
    }
}

#[test]
#[should_panic(expected = "the log is full")]
fn full_log_panics() {
    Driver::new().run(&Call::WriteEnable, &[0; 6], &mut [0; 3], &mut []);
}

#[test]
#[should_panic(expected = "the replies ended")]
fn ended_replies_panic() {
    Driver::new().run(&Call::WriteEnable, &[0], &mut [0; 24], &mut []);
}
