//! Packets, bursts and recordings on one card.

use super::{File, Lent, Room};
use crate::recordings::{self, Recording};
use crate::rng::Rng;
use crate::words::{to_bytes, FIELDS};
use crate::{bursts, cues, drafts, numbers, state, status_cell};
use model::area::{Area, POINTERS};
use model::packet::{check, run};
use model::packet_text::{packet_text, put_packet_text};
use model::packing::compile;
use model::recording::judge;
use model::spi::burst;
use model::store::{COUNT_ADDRESS, STORE_BYTES, UNLOCK_ADDRESS, UNLOCK_VALUE};
use model::why::why;
use model::PACKET_BYTES;

/// More bytes than a room has, for longer ones to be tried.
const SPARE: usize = 32;

pub struct Card {
    pub(super) store: Vec<u8>,
    pub(super) pointers: Vec<u32>,
    pub(super) reply: Vec<u8>,
}

/// A packet, the lengths of store, pointers and reply that are lent with it, and the pointers to go on
/// with where it is refused.
pub(super) struct Drawn {
    pub packet: Vec<u8>,
    pub rooms: [usize; 3],
    pub good: Vec<u32>,
}

impl Card {
    pub fn new(rng: &mut Rng) -> Card {
        let mut store = vec![0; STORE_BYTES + SPARE];
        rng.fill(&mut store);
        Card {
            store,
            pointers: vec![0; POINTERS + SPARE],
            reply: vec![0xEE; PACKET_BYTES + SPARE],
        }
    }

    pub fn packets(&mut self, file: &mut File, count: usize) {
        for _ in 0..count {
            let Drawn {
                packet,
                rooms,
                good,
            } = self.drawn(&mut file.rng);
            self.check(file, &packet, rooms);
            self.why(file, &packet, rooms);
            self.text(file, &packet, rooms);
            if !self.run(file, &packet, rooms) {
                self.pointers = good;
            }
        }
    }

    /// A packet for the card as it is now, which may have been changed.
    pub(super) fn drawn(&mut self, rng: &mut Rng) -> Drawn {
        self.change(rng);
        let good = self.pointers.clone();
        let front = *self.pointers.first_chunk().expect("eight pointers");
        let packet = drafts::packet(rng, front);
        if rng.one_in(60) {
            let area = rng.pick(&Area::ALL);
            self.pointers[area.index()] = rng.pick(&[area.bytes() + 1, u32::MAX]);
        }
        let wrong = rng.one_in(50);
        let mut room = |length: usize| match wrong && rng.coin() {
            true => rng.pick(&[0, 1, length - 1, length + 1, length + SPARE]),
            false => length,
        };
        let rooms = [room(STORE_BYTES), room(POINTERS), room(PACKET_BYTES)];
        Drawn {
            packet,
            rooms,
            good,
        }
    }

    /// Now and then changes cells and pointers, as nobody else does between packets.
    fn change(&mut self, rng: &mut Rng) {
        if rng.one_in(4) {
            let at = match rng.coin() {
                true => rng.below(256),
                false => rng.between(65_500, STORE_BYTES - 8),
            };
            rng.fill(&mut self.store[at..at + 8]);
        }
        if rng.one_in(8) {
            let value = rng.pick(&[UNLOCK_VALUE, 0xFFFF, 0x0001]);
            self.store[status_cell(UNLOCK_ADDRESS)].copy_from_slice(&value.to_le_bytes());
        }
        if rng.one_in(16) {
            self.store[status_cell(COUNT_ADDRESS)].fill(0xFF);
        }
        for area in Area::ALL {
            if rng.one_in(8) {
                self.pointers[area.index()] = state::good_pointer(rng, area);
            }
        }
    }

    fn check(&self, file: &mut File, packet: &[u8], [store, pointers, _]: [usize; 3]) {
        let (store, pointers) = (&self.store[..store], &self.pointers[..pointers]);
        let (number, value) = numbers(&check(packet, store, pointers), |&length| length as u64);
        let lent = vec![
            Lent::kept(Room::Input, packet),
            Lent::kept(Room::Store, store),
            Lent::words(Room::Pointers, pointers, pointers),
        ];
        file.call("head_check", number, &[], &[value], lent);
    }

    fn why(&self, file: &mut File, packet: &[u8], [store, pointers, _]: [usize; 3]) {
        let (store, pointers) = (&self.store[..store], &self.pointers[..pointers]);
        let room = match file.rng.one_in(50) {
            true => file.rng.pick(&[0, 1, FIELDS - 1, FIELDS + 1]),
            false => FIELDS,
        };
        let mut before = vec![0; room];
        file.rng.fill(&mut before);
        let (number, place, index, after) = match why(packet, store, pointers) {
            _ if room != FIELDS => (13, 0, 0, before.clone()),
            None => (0, 0, 0, vec![0; FIELDS]),
            Some(reason) => {
                let refusal = reason.refusal;
                let fields = to_bytes(reason.fields).to_vec();
                (refusal.number, refusal.place, reason.index, fields)
            }
        };
        let lent = vec![
            Lent::kept(Room::Input, packet),
            Lent::kept(Room::Store, store),
            Lent::words(Room::Pointers, pointers, pointers),
            Lent::changed(Room::Output, &before, &after),
        ];
        file.call("head_why", number, &[], &[place, index], lent);
    }

    fn text(&self, file: &mut File, packet: &[u8], [_, pointers, _]: [usize; 3]) {
        let pointers = &self.pointers[..pointers];
        let bytes = packet_text(packet, pointers).map_or(1, |(text, _)| text.len());
        let mut before = vec![0; bytes - 1 + file.rng.below(3)];
        file.rng.fill(&mut before);
        let (mut after, mut moved) = (before.clone(), pointers.to_vec());
        let answer = put_packet_text(packet, &mut moved, &mut after);
        let (number, value) = numbers(&answer, |&bytes| bytes as u64);
        let lent = vec![
            Lent::kept(Room::Input, packet),
            Lent::words(Room::Pointers, pointers, &moved),
            Lent::changed(Room::Output, &before, &after),
        ];
        file.call("head_packet_text", number, &[], &[value], lent);
    }

    /// Answers whether the packet was accepted.
    fn run(&mut self, file: &mut File, packet: &[u8], rooms: [usize; 3]) -> bool {
        let [store, pointers, reply] = rooms;
        let before = (
            self.store.clone(),
            self.pointers.clone(),
            self.reply.clone(),
        );
        let ran = run(
            packet,
            &mut self.store[..store],
            &mut self.pointers[..pointers],
            &mut self.reply[..reply],
        );
        let (number, value) = numbers(&ran, |ran| ran.length as u64);
        let elements = ran.map_or(0, |ran| ran.elements);
        let lent = vec![
            Lent::kept(Room::Input, packet),
            Lent::changed(Room::Store, &before.0[..store], &self.store[..store]),
            Lent::words(
                Room::Pointers,
                &before.1[..pointers],
                &self.pointers[..pointers],
            ),
            Lent::changed(Room::Reply, &before.2[..reply], &self.reply[..reply]),
        ];
        file.call("head_run", number, &[], &[value, elements], lent);
        number == 0
    }

    pub fn bursts(&mut self, file: &mut File, count: usize) {
        for _ in 0..count {
            let words = bursts::any(&mut file.rng);
            let store = burst_store(&mut file.rng);
            let before = burst_room(&mut file.rng, words.len());
            let (mut answer, old) = (before.clone(), self.store.clone());
            let done = burst(&words, &mut self.store[..store], &mut answer);
            let (number, value) = numbers(&done, |&elements| elements);
            let lent = vec![
                Lent::words(Room::Words, &words, &words),
                Lent::changed(Room::Store, &old[..store], &self.store[..store]),
                Lent::words(Room::Answer, &before, &answer),
            ];
            file.call("head_spi", number, &[], &[value], lent);
        }
    }

    pub fn recordings(&mut self, file: &mut File, count: usize) {
        for _ in 0..count {
            let recording = self.recording(&mut file.rng);
            let show = match file.rng.one_in(3) {
                true => recordings::bytes(&recording),
                false => recordings::damaged(&mut file.rng, recording),
            };
            let store = match file.rng.one_in(30) {
                true => file.rng.pick(&[0, STORE_BYTES - 1, STORE_BYTES + 1]),
                false => STORE_BYTES,
            };
            let before = (self.store.clone(), self.pointers.clone());
            let judged = judge(
                &show,
                &mut self.store[..store],
                &mut self.pointers[..POINTERS],
            );
            let (number, index, place) = recordings::numbers(judged);
            let lent = vec![
                Lent::kept(Room::Input, &show),
                Lent::changed(Room::Store, &before.0[..store], &self.store[..store]),
                Lent::words(
                    Room::Pointers,
                    &before.1[..POINTERS],
                    &self.pointers[..POINTERS],
                ),
            ];
            file.call("head_judge", number, &[], &[index, place], lent);
        }
    }

    /// Some packets with their replies from the card's state, or a show, or packets that may be refused.
    fn recording(&self, rng: &mut Rng) -> Recording {
        let (mut store, mut pointers) = (
            self.store[..STORE_BYTES].to_vec(),
            self.pointers[..POINTERS].to_vec(),
        );
        let count = rng.pick(&[0, 1, 2, 3]);
        let mut packets: Vec<Vec<u8>> = Vec::new();
        if rng.one_in(4) {
            let list = cues::good(rng);
            let mut output = vec![0; 4 * list.bytes().len()];
            let compiled = compile(list.bytes(), &mut output).expect("a good list");
            let found = crate::lists::packets(&output[..compiled.bytes]).expect("compiled packets");
            packets.extend(found.iter().take(4).map(|packet| packet.to_vec()));
        }
        let mut recording = Recording::new();
        for at in 0..count.max(packets.len()) {
            let front = *pointers.first_chunk().expect("eight pointers");
            let packet = packets.get(at).cloned();
            let packet = packet.unwrap_or_else(|| drafts::packet(rng, front));
            match recordings::reply(&packet, &mut store, &mut pointers) {
                Some(reply) => recording.extend([packet, reply]),
                None if rng.one_in(3) => recording.extend([packet, Vec::new()]),
                None => {}
            }
        }
        recording
    }
}

/// The length of a burst's store: now and then a wrong one.
pub(super) fn burst_store(rng: &mut Rng) -> usize {
    match rng.one_in(30) {
        true => rng.pick(&[0, 65_536, STORE_BYTES - 1, STORE_BYTES + 1]),
        false => STORE_BYTES,
    }
}

/// Room for a burst's answer: now and then too much.
pub(super) fn burst_room(rng: &mut Rng, words: usize) -> Vec<u32> {
    let room = match rng.one_in(30) {
        true => words + rng.between(1, 4),
        false => words,
    };
    (0..room).map(|_| rng.word()).collect()
}
