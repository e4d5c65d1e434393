//! Guards, and packets, bursts and lists with one.

use super::card::{burst_room, burst_store, Card, Drawn};
use super::{File, Lent, Room};
use crate::interlock::{bursts, lists, packets};
use crate::{guards, numbers};
use model::guard::{burst, check, list, run, sound};

/// Calls of each kind, packets and bursts on the card.
pub fn some(file: &mut File, card: &mut Card, count: usize) {
    for _ in 0..count {
        guard(file);
        packet(file, card);
        spi(file, card);
    }
}

/// The guard as it is lent.
fn lent(guard: &[u32]) -> Lent {
    Lent::words(Room::Guard, guard, guard)
}

fn guard(file: &mut File) {
    let guard = guards::any(&mut file.rng);
    let (number, value) = numbers(&sound(&guard), |&ranges| ranges);
    file.call("head_guard", number, &[], &[value], vec![lent(&guard)]);
}

/// Checks and runs a packet with a guard that is often made for it.
fn packet(file: &mut File, card: &mut Card) {
    let Drawn {
        packet,
        rooms,
        good,
    } = card.drawn(&mut file.rng);
    let mut guard = guards::any(&mut file.rng);
    if file.rng.coin() {
        let front = *good.first_chunk().expect("eight pointers");
        packets::aim(&mut file.rng, &mut guard, &packet, front);
    }
    checked(file, card, &packet, rooms, &guard);
    if !ran(file, card, &packet, rooms, &guard) {
        card.pointers = good;
    }
}

fn checked(
    file: &mut File,
    card: &Card,
    packet: &[u8],
    [store, pointers, _]: [usize; 3],
    guard: &[u32],
) {
    let (store, pointers) = (&card.store[..store], &card.pointers[..pointers]);
    let result = check(packet, store, pointers, guard);
    let (number, value) = numbers(&result, |&length| length as u64);
    let lent = vec![
        Lent::kept(Room::Input, packet),
        Lent::kept(Room::Store, store),
        Lent::words(Room::Pointers, pointers, pointers),
        lent(guard),
    ];
    file.call("head_guarded_check", number, &[], &[value], lent);
}

/// Answers whether the packet was accepted.
fn ran(
    file: &mut File,
    card: &mut Card,
    packet: &[u8],
    [store, pointers, reply]: [usize; 3],
    guard: &[u32],
) -> bool {
    let before = (
        card.store[..store].to_vec(),
        card.pointers[..pointers].to_vec(),
        card.reply[..reply].to_vec(),
    );
    let after = (
        &mut card.store[..store],
        &mut card.pointers[..pointers],
        &mut card.reply[..reply],
    );
    let ran = run(packet, after.0, after.1, after.2, guard);
    let (number, value) = numbers(&ran, |ran| ran.length as u64);
    let elements = ran.map_or(0, |ran| ran.elements);
    let lent = vec![
        Lent::kept(Room::Input, packet),
        Lent::changed(Room::Store, &before.0, after.0),
        Lent::words(Room::Pointers, &before.1, after.1),
        Lent::changed(Room::Reply, &before.2, after.2),
        lent(guard),
    ];
    file.call("head_guarded_run", number, &[], &[value, elements], lent);
    number == 0
}

/// Runs a burst with a guard that is often made for it.
fn spi(file: &mut File, card: &mut Card) {
    let words = crate::bursts::any(&mut file.rng);
    let mut guard = guards::any(&mut file.rng);
    if file.rng.coin() {
        bursts::aim(&mut file.rng, &mut guard, &words);
    }
    let store = burst_store(&mut file.rng);
    let before = burst_room(&mut file.rng, words.len());
    let (mut answer, old) = (before.clone(), card.store[..store].to_vec());
    let after = &mut card.store[..store];
    let done = burst(&words, after, &mut answer, &guard);
    let (number, value) = numbers(&done, |&elements| elements);
    let lent = vec![
        Lent::words(Room::Words, &words, &words),
        Lent::changed(Room::Store, &old, after),
        Lent::words(Room::Answer, &before, &answer),
        lent(&guard),
    ];
    file.call("head_guarded_spi", number, &[], &[value], lent);
}

/// Holds a list against a guard that is often made for it.
pub fn vetted(file: &mut File, list: &[u8]) {
    let mut guard = guards::any(&mut file.rng);
    if file.rng.coin() {
        lists::aim(&mut file.rng, &mut guard, list);
    }
    vet(file, list, &guard);
}

pub fn vet(file: &mut File, bytes: &[u8], guard: &[u32]) {
    let (number, value) = numbers(&list(bytes, guard), |&records| records);
    let lent = vec![Lent::kept(Room::Input, bytes), lent(guard)];
    file.call("head_guarded_list", number, &[], &[value], lent);
}
