//! The same with a `Mutex` of the standard library.
use std::sync::Mutex;
use std::thread;

const ACTS: u64 = 1_000_000;

fn main() {
    let mut line = String::new();
    std::io::stdin().read_line(&mut line).unwrap();
    let threads: u64 = line.trim().parse().unwrap();
    let row: Mutex<Vec<(u32, u64)>> = Mutex::new(Vec::with_capacity(ACTS as usize));
    thread::scope(|scope| {
        for number in 0..threads {
            let row = &row;
            scope.spawn(move || {
                for value in 0..ACTS / threads {
                    row.lock().unwrap().push((number as u32, value));
                }
            });
        }
    });
    println!("{threads} {}", row.lock().unwrap().len() as u64 == ACTS);
}
