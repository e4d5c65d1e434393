//! What each number means, in a sentence.

/// The longest sentence's bytes are at most so many.
pub const MOST_BYTES: usize = 100;

/// The numbers that mean something, in order.
pub const NUMBERS: [u32; 48] = [
    0, 1, 2, 3, 4, 5, 6, 7, 8, 9, 10, 11, 12, 13, 21, 22, 23, 24, 26, 27, 31, 32, 33, 34, 35, 40,
    41, 42, 43, 44, 45, 46, 50, 51, 61, 62, 63, 64, 65, 70, 71, 81, 82, 83, 91, 92, 93, 94,
];

/// The sentence of a number, 0 being acceptance.
pub fn sentence(number: u32) -> &'static str {
    match number {
        0 => "accepted",
        1 => {
            "store, pointers, reply room, answer room, or state of a list in parts: wrong length or value"
        }
        2 => "the packet is above 1,472 bytes",
        3 => "command word or its address cut off",
        4 => "info bit set in a write",
        5 => "the card has no such space",
        6 => "element size not the space's, or not 2 bytes in an info read",
        7 => "count 0, no element is named",
        8 => {
            "address not a multiple of the element size, or an element past the end of the space or info area"
        }
        9 => "a write to read-only cells, any of space 7 or those of space 2 below 0x20",
        10 => "a write to space 2 while the unlock is closed",
        11 => "write data cut off",
        12 => "the reply would pass 1,472 bytes",
        13 => "field out of range, or not as many fields as a word or a header has",
        21 => "100,000 records read and bytes remain",
        22 => "mark unknown, or record cut",
        23 => {
            "no such space, misaligned, past the end, read-only, or the unlock cell or the packet count"
        }
        24 => "spare byte not 0, or upper half of a value not 0 in a space of 2-byte elements",
        26 => {
            "room below the bytes needed: the output's; the list's, of one salvaged; 1,476 for a part"
        }
        27 => "room for fewer log entries, or frames of a capture, than are needed",
        31 => "no SPI word",
        32 => "command not 0xA or 0xB",
        33 => "count 0; when a header is written, also above 127",
        34 => "more words than 1 plus the count",
        35 => "address not a multiple of 4, or some promised element past the end",
        40 => {
            "no such field, channel or direction, room or values of another number, or a value out of range"
        }
        41 => {
            "the process table needs a byte not lent, or has a record, type, mode type or direction unknown"
        }
        42 => "a field of 0 or above 64 bits, or more than 96 bits in one direction",
        43 => "a channel asked for that is not started",
        44 => "a field not of type 2, not of 1 to 24 bits, or a value too large for its width",
        45 => "a bound that is no finite number, or a maximum not above the minimum",
        46 => "the value times the maximum is not finite",
        50 => "list good, and the output proposed for it rejected",
        51 => {
            "a record of the second list writes a cell that the first names, or names one that it writes"
        }
        61 => "a packet that is refused",
        62 => "a reply of another length than the card's",
        63 => "a reply of the right length with a wrong byte",
        64 => "the recording ends inside a part, or where a reply should begin",
        65 => "a part without the mark",
        70 => "the guard is not sound",
        71 => "a write to a protected cell",
        81 => "a line of no form: its first word with its number of words is none of the five",
        82 => "a word where a space, address or value must stand is none, or is too large",
        83 => "a name that is none, unknown, defined twice or one too many",
        91 => {
            "no capture that is read here: fewer than 24 bytes, another magic or another link type"
        }
        92 => "a frame cut: fewer bytes than its header has, or than it says were captured",
        93 => {
            "a datagram of the card not whole: more fragments, another UDP length, or bytes not captured"
        }
        94 => "a second reply to a request",
        _ => "no refusal has this number",
    }
}
