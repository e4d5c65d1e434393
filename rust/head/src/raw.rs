//! The library's exports, one for one, each as a safe function: the only module with `unsafe`.
//!
//! What a C caller owes the library (`include/head.h`) is what Rust's references have:
//!
//! - no pointer is null, and each is aligned for its type and valid for its length: it comes from a slice or a
//!   reference, also that of an empty slice;
//! - all that is lent holds a value, as a slice and a reference always do;
//! - what the library writes overlaps nothing else that it is lent, and nobody else touches it: it comes from
//!   `&mut`. Slices that are only read may overlap each other;
//! - a length is the slice's own, as the 64 bits that the header asks for.
//!
//! The library touches nothing beyond these lengths and keeps no pointer; that is proved of it. It neither
//! unwinds nor calls back.
#![allow(unsafe_code)]

/// What an answer holds before the call, so that one that was not written is seen.
const UNWRITTEN: u64 = u64::MAX;

/// Makes a safe function of each export. The parameters are the header's, in its order:
///
/// - `const x: T` a slice that is only read, and `mut x: T` a room: both are a pointer and a length in C;
/// - `by x: T` a number;
/// - `keep x: T` a number that is written only where the call is accepted;
/// - `answer x: T` a number that is always written; those at the end stand behind `->`.
///
/// The function gives the number returned, and behind it the answers, if there are any.
macro_rules! exports {
    ($(
        $(#[$note:meta])*
        fn $name:ident = $export:ident($($kind:ident $x:ident: $type:ty),*)
            $(-> ($($answer:ident: $number:ty),*))?;
    )*) => {$(
        export! {
            [$(#[$note])*] $name $export [] [] [] []
            $($kind $x: $type,)* $($(answer $answer: $number,)*)?
        }
    )*};
}

/// Takes the parameters of one export in turn, and gathers what C declares, what the function takes, what it passes
/// on, and its answers.
macro_rules! export {
    ($notes:tt $name:ident $export:ident [$($c:tt)*] [$($taken:tt)*] [$($passed:tt)*] [$($answers:tt)*]
     const $x:ident: $type:ty, $($rest:tt)*) => {
        export! {
            $notes $name $export [$($c)* _: *const $type, _: u64,] [$($taken)* $x: &[$type],]
            [$($passed)* $x.as_ptr(), $x.len() as u64,] [$($answers)*] $($rest)*
        }
    };
    ($notes:tt $name:ident $export:ident [$($c:tt)*] [$($taken:tt)*] [$($passed:tt)*] [$($answers:tt)*]
     mut $x:ident: $type:ty, $($rest:tt)*) => {
        export! {
            $notes $name $export [$($c)* _: *mut $type, _: u64,] [$($taken)* $x: &mut [$type],]
            [$($passed)* $x.as_mut_ptr(), $x.len() as u64,] [$($answers)*] $($rest)*
        }
    };
    ($notes:tt $name:ident $export:ident [$($c:tt)*] [$($taken:tt)*] [$($passed:tt)*] [$($answers:tt)*]
     by $x:ident: $type:ty, $($rest:tt)*) => {
        export! {
            $notes $name $export [$($c)* _: $type,] [$($taken)* $x: $type,]
            [$($passed)* $x,] [$($answers)*] $($rest)*
        }
    };
    ($notes:tt $name:ident $export:ident [$($c:tt)*] [$($taken:tt)*] [$($passed:tt)*] [$($answers:tt)*]
     keep $x:ident: $type:ty, $($rest:tt)*) => {
        export! {
            $notes $name $export [$($c)* _: *mut $type,] [$($taken)* $x: &mut $type,]
            [$($passed)* $x,] [$($answers)*] $($rest)*
        }
    };
    ($notes:tt $name:ident $export:ident [$($c:tt)*] [$($taken:tt)*] [$($passed:tt)*] [$($answers:tt)*]
     answer $x:ident: $type:ty, $($rest:tt)*) => {
        export! {
            $notes $name $export [$($c)* _: *mut $type,] [$($taken)*]
            [$($passed)* &mut $x,] [$($answers)* $x: $type,] $($rest)*
        }
    };
    ([$($note:tt)*] $name:ident $export:ident [$($c:tt)*] [$($taken:tt)*] [$($passed:tt)*] []) => {
        $($note)*
        #[inline]
        pub fn $name($($taken)*) -> u32 {
            unsafe extern "C" {
                fn $export($($c)*) -> u32;
            }
            // SAFETY: the pointers and lengths are those of references, see the module.
            unsafe { $export($($passed)*) }
        }
    };
    ([$($note:tt)*] $name:ident $export:ident [$($c:tt)*] [$($taken:tt)*] [$($passed:tt)*]
     [$($answer:ident: $number:ty,)+]) => {
        $($note)*
        #[inline]
        pub fn $name($($taken)*) -> (u32, $($number),+) {
            unsafe extern "C" {
                fn $export($($c)*) -> u32;
            }
            $(let mut $answer: $number = UNWRITTEN;)+
            // SAFETY: the pointers and lengths are those of references, see the module.
            let number = unsafe { $export($($passed)*) };
            (number, $($answer),+)
        }
    };
}

exports! {
    /// Answers the refusal number, and the reply's length or the place.
    ///
    /// ```
    /// let (store, pointers) = (vec![0; head::STORE_BYTES], [0; head::POINTERS]);
    /// assert_eq!(head::exports::check(&[0x81, 0x42, 0, 0], &store, &pointers), (0, 4));
    /// assert_eq!(head::exports::check(&[0x81, 0x42, 0, 0], &[], &pointers), (1, 0));
    /// ```
    fn check = head_check(const packet: u8, const store: u8, const pointers: u32) -> (value: u64);

    /// Answers the refusal number, the reply's length or the place, and the elements moved, 0 if
    /// refused.
    ///
    /// ```
    /// let (mut store, mut pointers) = (vec![0; head::STORE_BYTES], [0; head::POINTERS]);
    /// let mut reply = [0; head::PACKET_BYTES];
    /// let answer = head::exports::run(&[0x82, 0x42, 0, 0], &mut store, &mut pointers, &mut reply);
    /// assert_eq!(answer, (0, 8, 2));
    /// ```
    fn run = head_run(const packet: u8, mut store: u8, mut pointers: u32, mut reply: u8)
        -> (value: u64, elements: u64);

    /// Answers the refusal number, 0 if accepted, its place and the command's index, and writes the
    /// command's fields as [`fields`] does. Room for another number of bytes than 7 is refused with 13
    /// and left alone.
    ///
    /// ```
    /// let (store, mut fields) = (vec![0; head::STORE_BYTES], [9; 7]);
    /// let packet = [0x81, 0x42, 0xFC, 0xFF, 0x81, 0x02];
    /// let answer = head::why::exports::why(&packet, &store, &[0; head::POINTERS], &mut fields);
    /// assert_eq!((answer, fields), ((8, 4, 1), [0, 0, 0, 0, 2, 1, 1]));
    /// ```
    fn why = head_why(
        const packet: u8, const store: u8, const pointers: u32, answer place: u64, answer index: u64, mut fields: u8
    );

    /// Answers the refusal number, and the elements moved or the place.
    ///
    /// ```
    /// let (mut store, mut answer) = (vec![0; head::STORE_BYTES], [9; 2]);
    /// assert_eq!(head::exports::spi(&[0x1000_B810, 7], &mut store, &mut answer), (0, 1));
    /// assert_eq!((store[0x1000], answer), (7, [0, 0]));
    /// ```
    fn spi = head_spi(const words: u32, mut store: u8, mut answer: u32) -> (value: u64);

    /// Writes 7 bytes: write, address, info, space, size, increment, count. A slice of another
    /// length is refused with 13 and left alone.
    ///
    /// ```
    /// let mut fields = [9; 7];
    /// assert_eq!(head::exports::fields(0x4285, &mut fields), 0);
    /// assert_eq!(fields, [0, 1, 0, 0, 2, 1, 5]);
    /// assert_eq!(head::exports::fields(0x4285, &mut fields[1..]), 13);
    /// ```
    fn fields = head_fields(by word: u16, mut fields: u8);

    /// Puts the word of these 7 bytes together. Where that is refused, `word` is left alone.
    ///
    /// ```
    /// let mut word = 9;
    /// assert_eq!(head::exports::word(&[0, 1, 0, 0, 2, 1, 128], &mut word), 13);
    /// assert_eq!(word, 9);
    /// assert_eq!(head::exports::word(&[0, 1, 0, 0, 2, 1, 5], &mut word), 0);
    /// assert_eq!(word, 0x4285);
    /// ```
    fn word = head_word(const fields: u8, keep word: u16);

    /// Writes 4 numbers: address, command, increment, count. A slice of another length is refused
    /// with 13 and left alone.
    ///
    /// ```
    /// let mut fields = [9; 4];
    /// assert_eq!(head::header::exports::header(0x1000_A830, &mut fields), 0);
    /// assert_eq!(fields, [0x1000, 0xA, 1, 3]);
    /// ```
    fn header = head_header(by word: u32, mut fields: u32);

    /// Puts the header of these 4 numbers together. Where that is refused, `word` is left alone.
    ///
    /// ```
    /// let mut word = 9;
    /// assert_eq!(head::header::exports::header_word(&[0x1000, 0xC, 1, 3], &mut word), 32);
    /// assert_eq!(word, 9);
    /// assert_eq!(head::header::exports::header_word(&[0x1000, 0xA, 1, 3], &mut word), 0);
    /// assert_eq!(word, 0x1000_A830);
    /// ```
    fn header_word = head_header_word(const fields: u32, keep word: u32);

    /// Answers the refusal number, the output's bytes or the place, and the packets, 0 if refused.
    ///
    /// ```
    /// let mut out = [0; 8];
    /// assert_eq!(head::exports::compile(b"RD\0\0\x04\0", &mut out), (0, 8, 1));
    /// assert_eq!(head::exports::compile(b"RD\0\0\x04\0", &mut out[..7]), (26, 8, 0));
    /// ```
    fn compile = head_compile(const list: u8, mut out: u8) -> (bytes: u64, packets: u64);

    /// Answers the refusal number, the record, its offset in the list and the cause, all 0 of a good list.
    ///
    /// ```
    /// // A write to the packet count.
    /// let list = b"RD\0\0\x04\0WR\x06\0\x0A\0\0\0\0\0";
    /// assert_eq!(head::list_why::exports::list_why(list), (23, 1, 6, 6));
    /// ```
    fn list_why = head_list_why(const list: u8) -> (place: u64, offset: u64, cause: u64);

    /// Answers the refusal number, the bytes kept or the place, and the log's entries, 0 if refused.
    ///
    /// ```
    /// let (mut out, mut log) = ([0; 7], [0; 2]);
    /// let answer = head::salvage::exports::salvage(b"?RD\0\0\x04\0", &mut out, &mut log);
    /// assert_eq!((answer, log), ((0, 6, 1), [0, 1]));
    /// ```
    fn salvage = head_salvage(const list: u8, mut out: u8, mut log: u64) -> (bytes: u64, entries: u64);

    /// Answers the refusal number or 51, the list and the place, all 0 if independent.
    ///
    /// ```
    /// let (lamp, tilt) = (b"WR\0\0\x04\0\x01\0\0\0", b"RD\0\0\x08\0RD\0\0\x04\0");
    /// assert_eq!(head::independent::exports::independent(lamp, tilt), (51, 1, 1));
    /// ```
    fn independent = head_independent(const first: u8, const second: u8) -> (list: u64, place: u64);

    /// Answers the refusal number, the list's bytes or the place, and the records, 0 if refused.
    ///
    /// ```
    /// let mut out = [0; 6];
    /// assert_eq!(head::text::exports::assemble(b"read 0 4", &mut out), (0, 6, 1));
    /// assert_eq!(out, *b"RD\0\0\x04\0");
    /// ```
    fn assemble = head_assemble(const text: u8, mut out: u8) -> (bytes: u64, records: u64);

    /// Answers the refusal number, the text's bytes or the place, and the lines, 0 if refused.
    ///
    /// ```
    /// let mut out = [0; 22];
    /// assert_eq!(head::text::exports::list_text(b"RD\0\0\x04\0", &mut out), (0, 22, 1));
    /// assert_eq!(out, *b"read registers 0x0004\n");
    /// ```
    fn list_text = head_list_text(const list: u8, mut out: u8) -> (bytes: u64, lines: u64);

    /// Answers the refusal number, the bytes taken, and the bytes written or the place.
    ///
    /// ```
    /// use head::parts::{exports::part, ROOM, STATE_BYTES};
    ///
    /// let (mut state, mut out) = (vec![0; STATE_BYTES], [0; ROOM]);
    /// assert_eq!(part(&mut state, b"RD\0", 0, &mut out), (0, 3, 0));
    /// assert_eq!(part(&mut state, b"\0\x04\0", 1, &mut out), (0, 3, 8));
    /// ```
    fn part = head_part(mut state: u8, const part: u8, by last: u32, mut out: u8) -> (taken: u64, value: u64);

    /// Answers the refusal number, the output's bytes or the place, and the packets, 0 if refused.
    ///
    /// ```
    /// let list = b"RD\0\0\x04\0RD\0\0\x04\0";
    /// assert_eq!(head::tight::exports::tighten(list, &mut [0; 24]), (0, 8, 1));
    /// ```
    fn tighten = head_tighten(const list: u8, mut out: u8) -> (bytes: u64, packets: u64);

    /// Answers the refusal number or 50, and the packets, the place, or 0 if rejected.
    ///
    /// ```
    /// let list = b"RD\0\0\x04\0RD\0\0\x04\0";
    /// assert_eq!(head::tight::exports::tight_check(list, b"LB\x04\0\x02\x42\x04\0"), (0, 1));
    /// assert_eq!(head::tight::exports::tight_check(list, b"LB\x04\0\x01\x42\x04\0"), (50, 0));
    /// ```
    fn tight_check = head_tight_check(const list: u8, const output: u8) -> (value: u64);

    /// Answers the refusal number, and the pairs or the place.
    ///
    /// ```
    /// assert_eq!(head::guard::exports::guard(&[0x1000, 4, 0x2000, 16]), (0, 2));
    /// assert_eq!(head::guard::exports::guard(&[0x1000, 4, 0x2000]), (70, 1));
    /// ```
    fn guard = head_guard(const guard: u32) -> (value: u64);

    /// Answers the refusal number, and the reply's length or the place.
    ///
    /// ```
    /// let (store, pointers) = (vec![0; head::STORE_BYTES], [0; head::POINTERS]);
    /// let packet = [0x81, 0xC2, 0x00, 0x10, 1, 0, 0, 0];
    /// let answer = head::guard::exports::guarded_check(&packet, &store, &pointers, &[0x1003, 1]);
    /// assert_eq!(answer, (71, 0));
    /// ```
    fn guarded_check = head_guarded_check(const packet: u8, const store: u8, const pointers: u32, const guard: u32)
        -> (value: u64);

    /// Answers the refusal number, the reply's length or the place, and the elements moved, 0 if
    /// refused.
    ///
    /// ```
    /// let (mut store, mut pointers) = (vec![0; head::STORE_BYTES], [0; head::POINTERS]);
    /// let (mut reply, packet) = ([0; head::PACKET_BYTES], [0x81, 0xC2, 0x00, 0x10, 1, 0, 0, 0]);
    /// let mut run = |guard: &[u32]| {
    ///     head::guard::exports::guarded_run(&packet, &mut store, &mut pointers, &mut reply, guard)
    /// };
    /// assert_eq!(run(&[0x1003, 1]), (71, 0, 0));
    /// assert_eq!(run(&[0x1004, 1]), (0, 0, 1));
    /// ```
    fn guarded_run = head_guarded_run(
        const packet: u8, mut store: u8, mut pointers: u32, mut reply: u8, const guard: u32
    ) -> (value: u64, elements: u64);

    /// Answers the refusal number, and the elements moved or the place.
    ///
    /// ```
    /// let (mut store, mut answer) = (vec![0; head::STORE_BYTES], [9; 2]);
    /// let words = [0x1000_B810, 7];
    /// let refused = head::guard::exports::guarded_spi(&words, &mut store, &mut answer, &[0x1000, 4]);
    /// assert_eq!((refused, answer), ((71, 0), [9; 2]));
    /// ```
    fn guarded_spi = head_guarded_spi(const words: u32, mut store: u8, mut answer: u32, const guard: u32)
        -> (value: u64);

    /// Answers the refusal number, and the records or the place.
    ///
    /// ```
    /// let list = b"WR\0\0\x08\0\x01\0\0\0";
    /// assert_eq!(head::guard::exports::guarded_list(list, &[4, 4]), (0, 1));
    /// assert_eq!(head::guard::exports::guarded_list(list, &[8, 4]), (71, 0));
    /// ```
    fn guarded_list = head_guarded_list(const list: u8, const guard: u32) -> (value: u64);

    /// Answers the number, the packet's or part's index, and the place of a wrong byte or 0.
    ///
    /// ```
    /// let (mut store, mut pointers) = (vec![0; head::STORE_BYTES], [0; head::POINTERS]);
    /// let recording = b"LB\x04\0\x81\x42\0\0LB\x04\0\0\0\0\x07";
    /// let answer = head::recording::exports::judge(recording, &mut store, &mut pointers);
    /// assert_eq!(answer, (63, 0, 3));
    /// ```
    fn judge = head_judge(const recording: u8, mut store: u8, mut pointers: u32) -> (index: u64, place: u64);

    /// Answers the refusal number, the recording's bytes or the place, and the packets, 0 if refused.
    ///
    /// ```
    /// assert_eq!(head::capture::exports::capture(b"no capture", &mut [], &mut []), (91, 0, 0));
    /// ```
    fn capture = head_capture(const capture: u8, mut out: u8, mut frames: u32) -> (bytes: u64, packets: u64);

    /// Answers the refusal number, and how many inputs and outputs there are, both 0 if refused.
    ///
    /// ```
    /// assert_eq!(head::sserial::exports::table(&[0, 0, 0, 0], 0), (0, 0, 0));
    /// assert_eq!(head::sserial::exports::table(&[0, 0, 0, 0], 3), (41, 0, 0));
    /// ```
    fn table = head_table(const memory: u8, by table: u16) -> (inputs: u64, outputs: u64);

    /// Writes 7 numbers: width, type, direction, minimum, maximum, place of unit and of name.
    ///
    /// ```
    /// let mut numbers = [9; 7];
    /// assert_eq!(head::sserial::exports::field(&[0, 0, 0, 0], 0, 0, &mut numbers), 40);
    /// assert_eq!(numbers, [9; 7]);
    /// ```
    fn field = head_field(const memory: u8, by table: u16, by index: u64, mut field: u32);

    /// Writes the registers of one channel; direction 0 is in, 1 out.
    ///
    /// ```
    /// let mut registers = [9; head::sserial::REGISTERS];
    /// assert_eq!(head::sserial::exports::pack(&[0, 0, 0, 0], 0, 1, 7, &[], &mut registers), 0);
    /// assert_eq!(registers[20..], [9, 0, 0, 0]);
    /// ```
    fn pack = head_pack(
        const memory: u8, by table: u16, by direction: u32, by channel: u32, const values: u64, mut registers: u32
    );

    /// Writes the values of one direction, 0 in and 1 out.
    ///
    /// ```
    /// let registers = [9; head::sserial::REGISTERS];
    /// assert_eq!(head::sserial::exports::unpack(&[0, 0, 0, 0], 0, 0, 8, &registers, &mut []), 40);
    /// ```
    fn unpack = head_unpack(
        const memory: u8, by table: u16, by direction: u32, by channel: u32, const registers: u32, mut values: u64
    );

    /// Answers the refusal number. Where that is not 0, `mask` is left alone.
    ///
    /// ```
    /// let mut mask = 9;
    /// assert_eq!(head::panel::exports::start(0b100, 0b011, &mut mask), 43);
    /// assert_eq!(mask, 9);
    /// ```
    fn start = head_panel_start(by asked: u8, by started: u8, keep mask: u8);

    /// Answers the refusal number. Where that is not 0, `reading_bits` is left alone.
    ///
    /// ```
    /// let mut bits = 9;
    /// let maximum = 100_f32.to_bits();
    /// assert_eq!(head::panel::exports::reading(2, 8, 255, 0, maximum, &mut bits), 0);
    /// assert_eq!(bits, maximum);
    /// ```
    fn reading = head_panel_reading(
        by kind: u32, by width: u32, by value: u64, by minimum_bits: u32, by maximum_bits: u32, keep reading_bits: u32
    );

    /// Answers 0, 1 of the pointers, or 26 where the room is too small, and the text's bytes.
    ///
    /// ```
    /// let (mut pointers, mut out) = ([0; head::POINTERS], [0; 100]);
    /// let (number, bytes) = head::packet_text::exports::packet_text(&[0x81, 0x42, 0, 0], &mut pointers, &mut out);
    /// assert_eq!(number, 0);
    /// assert_eq!(&out[..bytes as usize], b"  0: read registers 0x0000, 1 element, increment\n");
    /// ```
    fn packet_text = head_packet_text(const packet: u8, mut pointers: u32, mut out: u8) -> (bytes: u64);

    /// Answers 0, or 26 where the room is too small, and the sentence's bytes.
    ///
    /// ```
    /// let mut out = [0; 100];
    /// assert_eq!(head::sentence::exports::sentence(31, &mut out), (0, 11));
    /// assert_eq!(out[..11], *b"no SPI word");
    /// ```
    fn sentence = head_sentence(by number: u32, mut out: u8) -> (bytes: u64);
}

/// How many channels were asked, how many failed, and the lowest of these or 8.
///
/// ```
/// assert_eq!(head::panel::exports::report(0b1110, 0b0101), [3, 1, 2]);
/// assert_eq!(head::panel::exports::report(0b1110, 0b0001), [3, 0, 8]);
/// ```
pub fn report(asked: u8, faults: u8) -> [u8; 3] {
    unsafe extern "C" {
        fn head_panel_report(_: u8, _: u8, _: *mut u8, _: *mut u8, _: *mut u8);
    }
    let [mut asked_count, mut failed_count, mut lowest] = [u8::MAX; 3];
    // SAFETY: the pointers are those of three variables, see the module.
    unsafe {
        head_panel_report(
            asked,
            faults,
            &mut asked_count,
            &mut failed_count,
            &mut lowest,
        )
    };
    [asked_count, failed_count, lowest]
}
