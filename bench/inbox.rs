//! The yardstick of `bench_inbox`: the same two loops over the standard library's bounded channel and an atomic word.
use std::sync::Arc;
use std::sync::atomic::{AtomicU64, Ordering};
use std::sync::mpsc::{Receiver, SyncSender, sync_channel};
use std::thread;

/// As many notes as the inbox holds.
const ROOM: usize = 16;

fn send_all(sender: SyncSender<u64>, count: u64) {
    for number in 0..count {
        sender.send(number).unwrap();
    }
}

fn take_all(receiver: Receiver<u64>, count: u64) -> u64 {
    (0..count).filter(|number| receiver.recv() == Ok(*number)).count() as u64
}

fn stop_all(sender: SyncSender<u64>, word: Arc<AtomicU64>, count: u64) {
    for number in 1..=count {
        while word.load(Ordering::Acquire) < number {}
        sender.send(number).unwrap();
    }
}

fn raise_all(word: Arc<AtomicU64>, receiver: Receiver<u64>, count: u64) -> u64 {
    (1..=count)
        .filter(|number| {
            word.store(*number, Ordering::Release);
            receiver.recv() == Ok(*number)
        })
        .count() as u64
}

fn main() {
    let given: Vec<String> = std::env::args().collect();
    let count: u64 = given[2].parse().unwrap();
    let (sender, receiver) = sync_channel(ROOM);
    let came = if given[1] == "stops" {
        let word = Arc::new(AtomicU64::new(0));
        let looker = word.clone();
        let worker = thread::spawn(move || stop_all(sender, looker, count));
        let came = raise_all(word, receiver, count);
        worker.join().unwrap();
        came
    } else {
        let worker = thread::spawn(move || send_all(sender, count));
        let came = take_all(receiver, count);
        worker.join().unwrap();
        came
    };
    println!("{came} of {count}");
}
