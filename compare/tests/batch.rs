//! C-16: document 02's batch, every cut and every byte of its head, limits, savings; and that a batch read as it comes gives
//! the same report, whatever each read gives.

use compare::batch::{bytes_of, report};
use compare::batch_cases::{answer_all, Case};
use compare::examples::{P1, R1};
use compare::generate::batches;
use compare::generate::words::Words;
use compare::generate::Random;
use compare::limits;
use compare::month::month;

/// A plan of no groups for R1: 9 bytes.
const NO_GROUPS: [u8; 9] = [0x50, 0x4C, 0x4E, 0x00, 0x01, 0x00, 0x06, 0x00, 0x00];

/// Document 02's batch, written out: R1 with P1, then R1 with a 9-byte plan of no groups.
fn document() -> Vec<u8> {
    let mut batch = vec![0x42, 0x41, 0x54, 0x00, 0x01, 0x00, 0x02];
    batch.extend([0x00, 29]);
    batch.extend(R1);
    batch.extend([0x00, 14]);
    batch.extend(P1);
    batch.extend([0x00, 29]);
    batch.extend(R1);
    batch.extend([0x00, 9]);
    batch.extend(NO_GROUPS);
    batch
}

fn text(batch: &[u8]) -> String {
    String::from_utf8(report(batch)).expect("a report is text")
}

fn entries(entries: &[(&[u8], &[u8])]) -> Vec<u8> {
    bytes_of(entries)
}

/// The last line of the report of these entries.
fn last(list: &[(&[u8], &[u8])]) -> String {
    let report = text(&entries(list));
    report.lines().last().expect("a line").to_string()
}

#[test]
fn the_documents_batch() {
    let wanted = "accepted 6 8 33 24\naccepted 6 6 33 33\ntotal 2 0 66 57 9\n";
    assert_eq!(text(&document()), wanted);
    assert_eq!(document(), entries(&[(&R1, &P1), (&R1, &NO_GROUPS)]));
    assert_eq!(text(b"BAT\0\x01\0\0"), "total 0 0 0 0 0\n");
}

#[test]
fn cut_at_every_byte() {
    let batch = document();
    for end in 0..batch.len() {
        // The first entry ends after 7 + 2 + 29 + 2 + 14 bytes.
        let wanted = match end {
            ..54 => "refused 75\n",
            _ => "accepted 6 8 33 24\nrefused 75\n",
        };
        assert_eq!(text(&batch[..end]), wanted, "{end}");
    }
}

#[test]
fn every_byte_of_mark_and_version() {
    for place in 0..5 {
        for byte in 0..=255 {
            let mut batch = document();
            if batch[place] != byte {
                batch[place] = byte;
                assert_eq!(text(&batch), "refused 75\n", "{place} {byte}");
                assert_eq!(text(&batch[..7]), "refused 75\n", "{place} {byte}");
            }
        }
    }
}

#[test]
fn another_count() {
    let both = "accepted 6 8 33 24\naccepted 6 6 33 33\nrefused 75\n";
    for count in 0..=u16::MAX {
        let mut batch = document();
        batch[5..7].copy_from_slice(&count.to_be_bytes());
        let wanted = match count {
            0 => "refused 75\n",
            1 => "accepted 6 8 33 24\nrefused 75\n",
            2 => continue,
            _ => both,
        };
        assert_eq!(text(&batch), wanted, "{count}");
    }
}

#[test]
fn bytes_left() {
    let batch = document();
    let further = document();
    for more in [&[0][..], &[0x0A], &[0; 5000], &further, &further[7..54]] {
        let wanted = "accepted 6 8 33 24\naccepted 6 6 33 33\nrefused 75\n";
        assert_eq!(text(&[&batch, more].concat()), wanted);
        let none = [b"BAT\0\x01\0\0", more].concat();
        assert_eq!(text(&none), "refused 75\n");
    }
}

/// Every other first length of the document's batch: the rule is then another, or the batch ends within it.
#[test]
fn another_length() {
    for length in 0..=u16::MAX {
        let mut batch = document();
        batch[7..9].copy_from_slice(&length.to_be_bytes());
        let report = text(&batch);
        match length {
            29 => assert!(report.ends_with("total 2 0 66 57 9\n")),
            _ => assert!(report.ends_with("refused 75\n"), "{length}"),
        }
        let first = report.lines().next().expect("a line");
        match usize::from(length) {
            // Then the plan's length is 52 55, more than there is.
            0 => assert_eq!(first, "refused 75"),
            // Two bytes of the plan's length, and as many as they say, must come after the rule.
            longer if 9 + longer + 2 > batch.len() => assert_eq!(first, "refused 75"),
            _ => {}
        }
    }
}

/// A rule of just so many bytes: one word and skips.
fn rule_of(length: usize) -> Vec<u8> {
    let mut rule = vec![0x52, 0x55, 0x4C, 0x00, 0x01, 0x01, 0x00];
    rule.resize(length - 1, 0x02);
    rule.push(0x00);
    rule
}

#[test]
fn limits_of_a_rule() {
    let plan = [0x50, 0x4C, 0x4E, 0x00, 0x01, 0x00, 0x01, 0x00, 0x00];
    for (length, line) in [
        (255, "accepted 1 1 0 0"),
        (256, "accepted 1 1 0 0"),
        (4095, "accepted 1 1 0 0"),
        (4096, "accepted 1 1 0 0"),
        (4097, "refused 1 0"),
        (8192, "refused 1 0"),
        (65_535, "refused 1 0"),
    ] {
        let batch = entries(&[(&R1, &P1), (&rule_of(length), &plan), (&R1, &P1)]);
        let report = text(&batch);
        let lines: Vec<&str> = report.lines().collect();
        assert_eq!(
            lines[..3],
            ["accepted 6 8 33 24", line, "accepted 6 8 33 24"]
        );
        let refused = usize::from(length > 4096);
        let total = format!("total {} {refused} 66 48 18", 3 - refused);
        assert_eq!(lines[3..], [total]);
    }
}

/// P1 and zeros: bytes left up to 1,024, then too long.
fn plan_of(length: usize) -> Vec<u8> {
    let mut plan = P1.to_vec();
    plan.resize(length, 0x00);
    plan
}

#[test]
fn limits_of_a_plan() {
    for (length, line) in [
        (15, "refused 23"),
        (1023, "refused 23"),
        (1024, "refused 23"),
        (1025, "refused 20"),
        (4097, "refused 20"),
        (65_535, "refused 20"),
    ] {
        let batch = entries(&[(&R1, &plan_of(length)), (&R1, &P1)]);
        let wanted = format!("{line}\naccepted 6 8 33 24\ntotal 1 1 33 24 9\n");
        assert_eq!(text(&batch), wanted);
    }
    for length in 0..9 {
        let batch = entries(&[(&R1, &P1[..length])]);
        assert_eq!(text(&batch), "refused 20\ntotal 0 1 0 0 0\n");
    }
}

/// A part that is skipped is one that is there: cut anywhere in it, the entry is not whole.
#[test]
fn skipped_parts_cut() {
    for entry in [(&rule_of(5000)[..], &P1[..]), (&R1, &plan_of(1500))] {
        let batch = entries(&[(&R1, &P1), entry]);
        for end in 54..batch.len() {
            let wanted = "accepted 6 8 33 24\nrefused 75\n";
            assert_eq!(text(&batch[..end]), wanted, "{end}");
        }
    }
}

#[test]
fn a_refused_rule_goes_before_its_plan() {
    let cut = &R1[..28];
    for plan in [
        &[][..],
        &P1,
        &plan_of(1024),
        &plan_of(1025),
        &plan_of(65_535),
    ] {
        let batch = entries(&[(cut, plan), (&rule_of(4097), plan)]);
        let wanted = "refused 4 28\nrefused 1 0\ntotal 0 2 0 0 0\n";
        assert_eq!(text(&batch), wanted);
    }
}

/// Three bits; if v0 then v1 := v1 and v1 else v1 := v2 and v2. Joined, the two ands cost 9 more.
const ANDS: [u8; 29] = [
    0x52, 0x55, 0x4C, 0x00, 0x01, 0x03, 0x01, 0x01, 0x01, 0x03, 0x10, 0x00, 0x01, 0x01, 0x25, 0x10,
    0x01, 0x10, 0x01, 0x00, 0x01, 0x01, 0x25, 0x10, 0x02, 0x10, 0x02, 0x00, 0x00,
];

#[test]
fn what_is_saved_may_be_negative() {
    let loss = (&ANDS[..], &P1[..]);
    let saving = (&R1[..], &P1[..]);
    let refused = (&ANDS[..28], &P1[..]);
    let wanted = "accepted 6 9 5 14\ntotal 1 0 5 14 -9\n";
    assert_eq!(text(&entries(&[loss])), wanted);
    assert_eq!(last(&[loss, loss, saving]), "total 3 0 43 52 -9");
    assert_eq!(last(&[saving, loss, saving]), "total 3 0 71 62 9");
    assert_eq!(last(&[(&R1, &NO_GROUPS)]), "total 1 0 33 33 0");
    assert_eq!(last(&[refused, loss, refused]), "total 1 2 5 14 -9");
    assert_eq!(last(&[loss, saving]), "total 2 0 38 38 0");
    // Ands of the same two bits, in either order, save 1 (C-18).
    let mut alike = ANDS;
    alike[18] = 0x02;
    alike[26] = 0x01;
    let wanted = "accepted 6 5 5 4\ntotal 1 0 5 4 1\n";
    assert_eq!(text(&entries(&[(&alike[..], &P1[..])])), wanted);
}

#[test]
fn many_entries() {
    let empty: (&[u8], &[u8]) = (&[], &[]);
    let report = text(&entries(&vec![empty; 65_535]));
    assert_eq!(report.lines().count(), 65_536);
    assert!(report.ends_with("refused 1 0\ntotal 0 65535 0 0 0\n"));
    let report = text(&entries(&vec![(&R1[..], &P1[..]); 3000]));
    assert!(report.ends_with("accepted 6 8 33 24\ntotal 3000 0 99000 72000 27000\n"));
}

/// What reading a batch as it comes gives, in pieces of the case's size.
fn in_pieces(case: &Case) -> Vec<u8> {
    let mut report = Vec::new();
    month(case.pieces(), &mut report).expect("nothing fails in memory");
    report
}

#[test]
fn read_as_it_comes() {
    for case in limits::batch_cases() {
        assert_eq!(in_pieces(&case), report(&case.batch), "{case:02X?}");
    }
    let batch = document();
    for end in 0..=batch.len() {
        for size in 1..=batch.len() {
            let case = Case::new(size, &batch[..end]);
            assert_eq!(in_pieces(&case), report(&case.batch), "{size} {end}");
        }
    }
}

#[test]
fn random_batches_read_as_they_come() {
    let mut random = Random::new(3);
    for count in (0..12).cycle().take(200) {
        let batch = batches::batch(&mut random, Words::ALL, count, batches::ANY_SIZE);
        let size = batches::piece_size(&mut random, &batch);
        let case = Case::new(size, &batch);
        assert_eq!(in_pieces(&case), report(&batch), "{size}");
    }
}

/// A case that the stream ends in is not answered.
#[test]
fn a_stream_of_cases() {
    let mut stream = Vec::new();
    Case::new(3, &document()).put(&mut stream);
    let first = stream.len();
    Case::new(0, b"BAT\0\x01\0\0").put(&mut stream);
    let one = format!("{}\n", text(&document()));
    for end in 0..=stream.len() {
        let mut reports = Vec::new();
        answer_all(&stream[..end], &mut reports).expect("nothing fails in memory");
        let wanted = match end {
            _ if end < first => String::new(),
            _ if end < stream.len() => one.clone(),
            _ => format!("{one}total 0 0 0 0 0\n\n"),
        };
        assert_eq!(String::from_utf8_lossy(&reports), wanted, "{end}");
    }
}

/// The stored files are what is made here.
#[test]
fn stored_files() {
    let stored = |name: &str| {
        let path = format!("{}/../crates/{name}", env!("CARGO_MANIFEST_DIR"));
        std::fs::read(path).expect("a stored file")
    };
    let mut stream = Vec::new();
    limits::batch_cases()
        .iter()
        .for_each(|case| case.put(&mut stream));
    assert!(stream == stored("conform_batches/stdin"));
    let mut reports = Vec::new();
    answer_all(&stream[..], &mut reports).expect("nothing fails in memory");
    assert!(reports == stored("conform_batches/stdout"));
    let batch = limits::month();
    assert!(batch == stored("month/stdin"));
    assert!(report(&batch) == stored("month/stdout"));
}
