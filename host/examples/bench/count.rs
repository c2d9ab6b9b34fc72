//! Instructions, counted by callgrind between marks.

use std::hint::black_box;

use crate::items::{Call, Item};

/// How often each call is made between two marks.
const CALLS: usize = 20;

/// Callgrind is told to write down its count, and to begin anew, whenever this is entered.
#[no_mangle]
#[inline(never)]
extern "C" fn bench_mark() {
    black_box(());
}

/// Makes the calls of every item, each lot between two marks.
pub fn make_calls(items: &[Item]) {
    for item in items {
        let mut out = item.lent.clone();
        make_lot(&item.calls.nothing, &mut out);
        for call in &item.calls.by_library {
            make_lot(call, &mut out);
        }
    }
}

fn make_lot(call: &Call, out: &mut [u8]) {
    // What only a first call does is not counted.
    call(out);
    bench_mark();
    for _ in 0..CALLS {
        call(out);
    }
    bench_mark();
}

/// The instructions of each item's calls by library, less those of the call that does nothing.
pub fn per_call(callgrind: &str, items: &[Item]) -> Vec<Vec<f64>> {
    let totals = callgrind.lines().filter_map(|line| line.strip_prefix("totals: "));
    let counts = totals.map(|total| total.parse::<f64>().expect("a number of instructions"));
    // Before each lot stands the count of what lay between two of them.
    let mut lots = counts.skip(1).step_by(2);
    let mut lot = || lots.next().expect("a count for each lot");
    let mut of_item = |item: &Item| {
        let nothing = lot();
        item.calls.by_library.iter().map(|_| (lot() - nothing) / CALLS as f64).collect()
    };
    items.iter().map(&mut of_item).collect()
}
