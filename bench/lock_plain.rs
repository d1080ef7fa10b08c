//! Makes turns of a bay behind a `Mutex` in so many threads as the first argument says, so many of all together as the
//! second says, and prints how many steps the bay then has made. A turn is a tick: the newest moment stays, and the step is counted.
use std::sync::Mutex;

struct Bay {
    steps: u64,
    latest: u64,
}

/// A tick at a moment; gives its place.
fn tick(bay: &Mutex<Bay>, moment: u64) -> u64 {
    let mut bay = bay.lock().unwrap();
    bay.latest = bay.latest.max(moment);
    let place = bay.steps;
    bay.steps += 1;
    place
}

fn main() {
    let arguments: Vec<u64> = std::env::args().skip(1).map(|it| it.parse().unwrap()).collect();
    let bay = Mutex::new(Bay { steps: 0, latest: 0 });
    std::thread::scope(|scope| {
        for _ in 0..arguments[0] {
            scope.spawn(|| (0..arguments[1] / arguments[0]).fold(0, |seen, _| seen ^ std::hint::black_box(tick(&bay, 441763200000))));
        }
    });
    println!("{}", bay.into_inner().unwrap().steps);
}
