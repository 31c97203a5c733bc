//! C-13 by hand: kind bytes, needs, files and runs of R1 with working variables, and outputs FF FF. Many more cases stand
//! in `beside_plain.rs`.

use std::mem::MaybeUninit;
use tuned::*;

#[rustfmt::skip]
const R1: [u8; 29] = [
    0x52, 0x55, 0x4C, 0x00, 0x01, 0x03, 0x01, 0x00, 0x00,
    0x03, 0x10, 0x00,
        0x01, 0x01, 0x22, 0x10, 0x01, 0x10, 0x02, 0x00,
        0x01, 0x01, 0x22, 0x10, 0x02, 0x10, 0x02, 0x00,
    0x00,
];

#[rustfmt::skip]
const P1: [u8; 14] = [0x50, 0x4C, 0x4E, 0x00, 0x01, 0x00, 0x06, 0x00, 0x01, 0x02, 0x00, 0x03, 0x00, 0x04];

/// R1 with the variables of the mask working.
fn working(mask: usize) -> [u8; 29] {
    let mut rule = R1;
    for (place, kind_byte) in rule[6..9].iter_mut().enumerate() {
        *kind_byte += 2 * (mask >> place & 1) as u8;
    }
    rule
}

/// What is written: 0 in the places of the mask.
fn without(mut figures: [u32; 3], mask: usize) -> [u32; 3] {
    for (place, figure) in figures.iter_mut().enumerate() {
        *figure *= (!mask >> place & 1) as u32;
    }
    figures
}

#[test]
fn kind_bytes() {
    for (place, good, wrong) in [(6, [1, 3], 11), (7, [0, 2], 14), (8, [0, 2], 18)] {
        for byte in 0..=0xFF {
            let mut rule = R1;
            rule[place] = byte;
            let answer = read_rule(&rule);
            let wanted = match byte {
                0x04.. => (3, place),
                _ if good.contains(&byte) => (0, 0),
                _ => (7, wrong),
            };
            assert_eq!((answer.number, answer.place), wanted, "{byte:02X}");
        }
    }
}

#[test]
fn needs() {
    for mask in 0..8 {
        let mut room = MaybeUninit::uninit();
        let shown = show_plain(&working(mask), &mut room);
        assert_eq!([shown.rows[0], shown.rows[4], shown.rows[8]], [1, 0, 0]);
        let result = |place: usize| 0u64.wrapping_sub((!mask >> place & 1) as u64);
        let (first, second) = (0xAAAA_AAAA_AAAA_AAAA, 0x5555_5555_5555_5555);
        let wanted = match result(1) {
            0 => [result(0), 0, result(2), 0, 0, 0],
            _ => [u64::MAX, first, u64::MAX, first, second, u64::MAX],
        };
        assert_eq!(shown.needs[..24], wanted.map(|word| [word; 4]).concat());
    }
}

/// Guards of gates that nothing needs have no wire: the file is 4 bytes shorter where v1 works.
#[test]
fn files_and_runs() {
    for mask in 0..8 {
        let rule = working(mask);
        let bytes = if mask & 0b010 == 0 { 114 } else { 110 };
        let mut file = [0xEE; 118];
        let answer = write_fused(&rule, &P1, &mut file);
        assert_eq!((answer.number, answer.bytes, answer.after), (0, bytes, 24));
        assert_eq!(write_fused(&rule, &P1, &mut file[..bytes - 1]).number, 50);
        assert!(file[bytes..].iter().all(|&byte| byte == 0xEE));
        let outputs = [[0x00, 0x00], [0x00, 0x07], [0x00, 0x02]];
        for (place, output) in outputs.into_iter().enumerate() {
            let works = mask >> place & 1 == 1;
            let wanted = if works { [0xFF, 0xFF] } else { output };
            assert_eq!(file[bytes - 6 + 2 * place..][..2], wanted);
        }
        for (inputs, figures) in [([1, 6, 7], [1, 42, 7]), ([0, 6, 7], [0, 49, 7])] {
            let wanted = without(figures, mask);
            let mut all = [[9; 4]; 4];
            assert_eq!(run_rule(&rule, &inputs, &mut all[0]).number, 0);
            assert_eq!(run_fused(&rule, &P1, &inputs, &mut all[1]).number, 0);
            let answer = run_fused_unwritten(&rule, &P1, &inputs, &mut all[2]);
            assert_eq!(answer.number, 0);
            assert_eq!(run_circuit(&file[..bytes], &inputs, &mut all[3]).number, 0);
            for results in all {
                assert_eq!((&results[..3], results[3]), (&wanted[..], 9));
            }
        }
        let mut results = [9; 3];
        assert_eq!(run_rule(&rule, &[2, 6, 7], &mut results).number, 41);
        let answer = run_circuit(&file[..bytes], &[2, 6, 7], &mut results);
        assert_eq!((answer.number, results), (41, [9; 3]));
    }
}

/// A bit and a word, and nothing more.
#[test]
fn outputs_that_name_no_wire() {
    let with = |outputs: [u8; 4]| {
        let head = b"CIR\x00\x01\x02\x00\x02\x01\x00\x00\x01";
        [&head[..], &outputs].concat()
    };
    for (outputs, wanted) in [
        ([0x00, 0x00, 0x00, 0x01], [1, 7]),
        ([0xFF, 0xFF, 0x00, 0x01], [0, 7]),
        ([0x00, 0x00, 0xFF, 0xFF], [1, 0]),
        ([0xFF, 0xFF, 0xFF, 0xFF], [0, 0]),
    ] {
        let file = with(outputs);
        assert_eq!(read_circuit(&file).number, 0);
        let mut results = [9; 3];
        assert_eq!(run_circuit(&file, &[1, 7], &mut results).number, 0);
        assert_eq!(results, [wanted[0], wanted[1], 9]);
        assert_eq!(run_circuit(&file, &[2, 7], &mut results).number, 41);
        assert_eq!(record(&file, 0xFFFF), []);
    }
    for odd in [[0xFF, 0xFE], [0xFF, 0x00], [0x00, 0xFF], [0x02, 0x80]] {
        for outputs in [[odd, [0x00, 0x01]], [[0xFF; 2], odd], [odd, [0xFF; 2]]] {
            let file = with(outputs.concat().try_into().unwrap());
            assert_eq!(read_circuit(&file).number, 62);
        }
    }
}
