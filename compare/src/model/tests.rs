//! The marked points of document 01 and its printed table.

use super::fuse::Fuse;
use super::{run, step};
use crate::library::Lent;
use crate::scenario::{Scenario, AUXILIARY_FUSE, BLANK, COUNTER, GENERAL_FUSE, STOPPED};

/// A new bench device with the given PC and fuse bytes.
fn bench(counter: u32, general_fuse: u32, auxiliary_fuse: u32) -> Scenario {
    let mut device = Scenario::new_device([512, 10, 4, 1, 0x7F_FFEA]);
    device.state[COUNTER] = counter;
    device.state[GENERAL_FUSE] = general_fuse;
    device.state[AUXILIARY_FUSE] = auxiliary_fuse;
    device
}

/// The device, lent to one call.
fn lend(device: &mut Scenario) -> Lent<'_> {
    Lent {
        description: &device.description,
        state: &mut device.state,
        general: &mut device.general,
        auxiliary: &mut device.auxiliary,
    }
}

/// The answer and value of one event, which changes the device.
fn answer(device: &mut Scenario, event: [u32; 3]) -> (u32, u32) {
    let report = step(lend(device), event);
    (report.answer, report.value)
}

#[test]
fn fuse_bytes_are_read_as_marked() {
    let cases = [
        (0x03, false, true),
        (0xC3, false, true),
        (0x32, false, false),
        (0x31, true, true),
        (0x30, true, false),
        (0x33, true, true),
        (0x13, true, true),
        (0x02, true, false),
    ];
    for (byte, high, writable) in cases {
        assert_eq!(
            Fuse::new(byte, true),
            Fuse {
                byte,
                high,
                writable
            }
        );
    }
}

#[test]
fn fuse_bytes_have_no_key_without_keys() {
    for byte in 0..=255 {
        let fuse = Fuse::new(byte, false);
        assert_eq!(fuse.high, byte & 2 == 0);
        assert_eq!(fuse.writable, byte & 1 == 1);
    }
}

#[test]
fn flow_into_high_auxiliary_needs_the_last_locations() {
    let mut device = bench(0x400, 0x03, 0x31);
    device.state[5] = 0x123;
    assert_eq!(answer(&mut device, [2, 0x7F_FFBE, 0]), (3, 0));
    assert_eq!(device.state[..6], [0, 1, 0, 0x03, 0x31, BLANK]);
    let mut device = bench(0x400, 0x03, 0x31);
    assert_eq!(answer(&mut device, [2, 0x7F_FFC0, 0]), (0, 0));
    assert_eq!(device.state[COUNTER], 0x7F_FFC0);
}

#[test]
fn flow_past_general_traps() {
    let mut device = bench(0x400, 0x03, 0x03);
    assert_eq!(answer(&mut device, [2, 0x00_27FE, 0]), (0, 0));
    let mut device = bench(0x400, 0x03, 0x03);
    assert_eq!(answer(&mut device, [2, 0x00_2800, 0]), (4, 0));
    assert_eq!(device.state[..3], [0x400, 0, 1]);
}

#[test]
fn vector_space_is_readable_and_general_is_not() {
    let mut device = bench(0x7F_F000, 0x31, 0x03);
    device.general[0xFF] = 0xAB12_3456;
    assert_eq!(answer(&mut device, [4, 0x00_01FE, 0]), (0, 0x12_3456));
    assert_eq!(answer(&mut device, [4, 0x00_0200, 0]), (1, 0));
}

#[test]
fn page_of_the_vectors_is_frozen() {
    let mut device = bench(0x400, 0x31, 0x03);
    assert_eq!(answer(&mut device, [7, 0x00_03FE, 0]), (2, 0));
    assert_eq!(answer(&mut device, [7, 0x00_0400, 0]), (0, 0));
}

#[test]
fn row_counts_bits_not_set() {
    let mut device = bench(0x400, 0x03, 0x03);
    device.general[0x200] = 0xFF00_00F0;
    assert_eq!(answer(&mut device, [5, 0x00_0400, 0x00_00FF]), (0, 0));
    assert_eq!(answer(&mut device, [6, 0x00_047E, 0]), (0, 4));
    assert_eq!(device.general[0x200], 0x00_00F0);
    assert_eq!(device.state[5], BLANK);
}

#[test]
fn blank_vector_traps() {
    let mut device = bench(0x400, 0x03, 0x03);
    assert_eq!(answer(&mut device, [3, 0, 0]), (4, 0));
}

#[test]
fn vector_space_traps_at_the_next_event() {
    let mut device = bench(0x400, 0x03, 0x03);
    assert_eq!(answer(&mut device, [2, 0x00_0004, 0]), (0, 0));
    assert_eq!(answer(&mut device, [13, 0, 0]), (6, 0));
    assert_eq!(answer(&mut device, [4, 0x00_0400, 0]), (4, 0));
    assert_eq!(answer(&mut device, [1, 0, 0]), (5, 0));
    assert_eq!(answer(&mut device, [12, 0, 0]), (0, 0));
    assert_eq!(device.state[STOPPED], 0);
}

#[test]
fn interrupt_in_auxiliary_takes_the_auxiliary_vector() {
    let mut device = bench(0x7F_F000, 0x03, 0x31);
    assert_eq!(answer(&mut device, [3, 253, 0]), (0, 0));
    assert_eq!(device.state[COUNTER], 0x7F_FFEA);
    assert_eq!(answer(&mut device, [3, 254, 0]), (6, 0));
}

#[test]
fn fuse_programming_never_undoes_protection() {
    for byte in 0..256 {
        let mut device = bench(0x400, 0x03, 0x33);
        assert_eq!(answer(&mut device, [11, byte, 0]), (2, 0));
    }
    let mut device = bench(0x400, 0x33, 0x03);
    assert_eq!(answer(&mut device, [10, 0x03, 0]), (2, 0));
    let mut device = bench(0x400, 0x32, 0x03);
    assert_eq!(answer(&mut device, [10, 0x03, 0]), (2, 0));
}

#[test]
fn clearing_erases_leave_blank_words_and_an_open_fuse() {
    let mut device = bench(0x7F_F000, 0x30, 0x30);
    device.general.fill(0);
    assert_eq!(answer(&mut device, [8, 0, 0]), (0, 0));
    assert!(device.general.iter().all(|word| *word == BLANK));
    assert_eq!(device.state[GENERAL_FUSE], 0x03);
    assert_eq!(answer(&mut device, [9, 0, 0]), (2, 0));
}

/// The paper's table: operation, origin, then a cell for each target and protection.
const TABLE: &str = "\
program,AS,Y,N,N,N,Y,N,Y,N,Y,N,N,N
program,GS,Y,N,Y,N,Y,N,N,N,Y,N,N,N
read,AS,Y,Y,N,N,Y,Y,Y,Y,Y,Y,Y,Y
read,GS,Y,Y,Y,Y,Y,Y,N,N,Y,Y,Y,Y
";

#[test]
fn permissions_are_the_printed_table() {
    let mut table = String::new();
    for (operation, kinds) in [("program", [6, 7]), ("read", [4, 4])] {
        for (origin, counter) in [("AS", 0x7F_F000), ("GS", 0x400)] {
            table += &format!("{operation},{origin}");
            for target in [0x00_0800, 0x7F_F800, 0x00_0100] {
                for fuse in [0x03, 0x32, 0x31, 0x30] {
                    let cells = kinds.map(|kind| {
                        let mut device = bench(counter, fuse, fuse);
                        answer(&mut device, [kind, target, 0]).0 == 0
                    });
                    assert_eq!(cells[0], cells[1]);
                    table += if cells[0] { ",Y" } else { ",N" };
                }
            }
            table += "\n";
        }
    }
    assert_eq!(table, TABLE);
}

#[test]
fn a_run_ends_at_its_first_trap() {
    let mut device = bench(0x400, 0x03, 0x03);
    let events = [1, 0, 0, 99, 0, 0, 2, 0x30_0000, 0, 12, 0, 0];
    let mut slots = [77; 8];
    let report = run(lend(&mut device), &events, usize::MAX, &mut slots);
    assert_eq!((report.answer, report.count), (0, 3));
    assert_eq!(slots, [0, 0, 6, 0, 4, 0, 77, 77]);
}
