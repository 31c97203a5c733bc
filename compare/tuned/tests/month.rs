//! C-16 by the tuned implementation: the report of every stored batch and of random ones beside the plain one's, whatever the
//! pieces that they come in.

use compare::batch::{bytes_of, report};
use compare::batch_cases::Case;
use compare::examples::{P1, R1};
use compare::generate::words::Words;
use compare::generate::{batches, Random};
use compare::limits;

#[track_caller]
fn assert_same(case: &Case) {
    let mut made = Vec::new();
    tuned::month(case.pieces(), &mut made).expect("nothing fails in memory");
    assert!(made == report(&case.batch), "{case:02X?}");
}

#[test]
fn stored_batches() {
    limits::batch_cases().iter().for_each(assert_same);
    let month = limits::month();
    for size in [0, 1, 2, 3, 7, 100, 4096, 65_535] {
        assert_same(&Case::new(size, &month));
    }
}

/// More than its buffers hold, in pieces of several sizes, and cut.
#[test]
fn large_batches() {
    let mut entries = vec![(R1.to_vec(), P1.to_vec()); 8000];
    entries[4000].0.resize(65_535, 0x00);
    entries[5000].1.resize(65_535, 0x00);
    entries[6000] = (vec![0x00; 65_535], vec![0x00; 65_535]);
    let batch = bytes_of(&entries);
    for size in [0, 1, 1000, 4099, 65_535] {
        assert_same(&Case::new(size, &batch));
    }
    for end in [60_000, 131_072, 250_000, 300_000, batch.len() - 1] {
        assert_same(&Case::new(0, &batch[..end]));
    }
}

#[test]
fn random_batches() {
    let mut random = Random::new(16);
    for count in (0..12).cycle().take(400) {
        let most = random.pick(&[150, 1000, batches::ANY_SIZE]);
        let batch = batches::batch(&mut random, Words::ALL, count, most);
        let size = batches::piece_size(&mut random, &batch);
        assert_same(&Case::new(size, &batch));
    }
}
