//! Pieces of work that need nothing of each other, on all processors.

use std::sync::atomic::{AtomicUsize, Ordering};
use std::sync::mpsc;
use std::thread;

/// Does each piece once, as many at a time as there are processors, and hands the results on in the order of the pieces. Once `take` says that this
/// was enough, no further piece is begun.
pub fn in_order<P: Sync, R: Send>(
    pieces: &[P],
    work: impl Fn(&P) -> R + Sync,
    mut take: impl FnMut(&P, R) -> bool,
) {
    let next = AtomicUsize::new(0);
    let (sender, results) = mpsc::channel();
    let worker = |sender: mpsc::Sender<(usize, R)>| loop {
        let place = next.fetch_add(1, Ordering::Relaxed);
        let Some(piece) = pieces.get(place) else {
            return;
        };
        // Nobody listens once it was enough.
        if sender.send((place, work(piece))).is_err() {
            return;
        }
    };
    thread::scope(|scope| {
        for _ in 0..thread::available_parallelism().map_or(1, usize::from) {
            let sender = sender.clone();
            scope.spawn(|| worker(sender));
        }
        drop(sender);
        let mut done: Vec<Option<R>> = pieces.iter().map(|_| None).collect();
        let mut taken = 0;
        for (place, result) in results {
            done[place] = Some(result);
            while let Some(result) = done.get_mut(taken).and_then(Option::take) {
                if !take(&pieces[taken], result) {
                    return;
                }
                taken += 1;
            }
        }
    });
}
