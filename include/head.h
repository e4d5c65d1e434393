/* The head controller, in the order in which one meets its parts:
 *
 *   a card                  head_check, head_run, head_why, head_packet_text                        examples/c/packets.c
 *   SPI bursts              head_spi                                                                examples/c/bursts.c
 *   words and headers       head_fields, head_word, head_header, head_header_word                   examples/c/bursts.c
 *   cue lists               head_compile                                                            examples/c/lists.c
 *   damaged cue lists       head_list_why, head_salvage                                             examples/c/damaged.c
 *   two cue lists           head_independent                                                        examples/c/tight.c
 *   cue lists as text       head_assemble, head_list_text                                           examples/c/lists.c
 *   a cue list in parts     head_part                                                               examples/c/parts.c
 *   packets in fewer bytes  head_tighten, head_tight_check                                          examples/c/tight.c
 *   the interlock           head_guard, head_guarded_check, head_guarded_run, head_guarded_spi,
 *                           head_guarded_list                                                       examples/c/guard.c
 *   recordings, captures    head_judge, head_capture                                                examples/c/captures.c
 *   daughter cards          head_table, head_field, head_pack, head_unpack                          examples/c/daughter.c
 *   the lamp panel          head_panel_start, head_panel_report, head_panel_reading                 examples/c/daughter.c
 *   what a number means     head_sentence                                                           examples/c/packets.c
 *
 * What a call returns: 0 if it accepts, else the number of the refusal (enum head_refusal). head_panel_report refuses nothing and
 * returns nothing.
 *
 * What an accepted call leaves: its answers, and what it writes at the front of a room. The rest of the room is unchanged.
 *
 * What a refused call leaves: all that it was lent as it was, but for these answers. *value or *bytes holds the refusal's place;
 * *packets, *elements, *entries, *records, *lines, *inputs and *outputs hold 0; what *taken, *place, *index, *offset, *cause, *list
 * and head_why's fields hold is said at the function. *word, *mask and *reading_bits keep what they held. Two functions change more:
 *   - head_part keeps a fault of the list (21 to 24) in the state, so that later calls repeat it;
 *   - head_judge leaves store and pointers, for 61 to 65, as the packets accepted before the fault leave them.
 *
 * Which refusal: if several apply, 1 comes first, then 2, then those of the earliest failing command or record, the lowest number
 * first. Of these functions it is otherwise, or more is to be said:
 *   - head_why gives 13 before 1, and head_part 26 before 1;
 *   - head_table, head_field, head_pack and head_unpack give 41, then 42, then 40;
 *   - head_salvage gives 26, then 27; head_panel_reading 44, then 45, then 46;
 *   - 26 of head_compile and head_tighten, and 50 and 51, are given only where the lists are good;
 *   - head_assemble gives 81, then 82, then 83, then 21 to 24, and 26 only where the text is good;
 *   - head_judge gives 1, then the first fault in the recording;
 *   - head_capture gives 91, then that of the earliest bad frame, the lowest number first, then 26, then 27;
 *   - the functions with a guard give 70 before all else, and 71 only where all else is good.
 *
 * What a caller owes:
 *   - A buffer is given as a pointer and then its number of elements (bytes, or numbers of 32 or of 64 bits). This number has
 *     64 bits on every machine, since the proved code counts with 64 bits.
 *   - No pointer may be null, not even that of a buffer with a length of 0.
 *   - Pointers are aligned for their type, and all that is lent holds a value, also what is only written: clear
 *     all rooms and all that takes an answer before the first call.
 *   - What a call writes, *value included, overlaps nothing else that it is lent; buffers that it only reads may overlap each
 *     other. Until it returns nobody else touches what it writes, or changes what it reads.
 *
 * What is kept: nothing between calls. The card's state is the store and the pointers, that of a list in parts its
 * HEAD_PART_BYTES bytes; the caller keeps them. What the calls cost stands at the end of this file.
 */
#ifndef HEAD_H
#define HEAD_H

#include <stdint.h>

#ifdef __cplusplus
extern "C" {
#endif

/* The version of this header and its library, as the file VERSION has it. CHANGELOG.md says which changes raise which number. */
#define HEAD_VERSION "1.0.0"
#define HEAD_VERSION_MAJOR 1
#define HEAD_VERSION_MINOR 0
#define HEAD_VERSION_PATCH 0

/* What the functions return. head_sentence has a sentence for each; each function's comment says which it gives, and when. */
enum head_refusal {
    HEAD_ACCEPTED = 0,

    /* packets; 1 also of bursts, recordings and the state of a list in parts, 13 also of headers */
    HEAD_REFUSED_STATE = 1,
    HEAD_REFUSED_PACKET_LENGTH = 2,
    HEAD_REFUSED_WORD_CUT = 3,
    HEAD_REFUSED_INFO_WRITE = 4,
    HEAD_REFUSED_SPACE = 5,
    HEAD_REFUSED_ELEMENT_SIZE = 6,
    HEAD_REFUSED_COUNT_ZERO = 7,
    HEAD_REFUSED_ADDRESS = 8,
    HEAD_REFUSED_READ_ONLY = 9,
    HEAD_REFUSED_LOCKED = 10,
    HEAD_REFUSED_DATA_CUT = 11,
    HEAD_REFUSED_REPLY_LENGTH = 12,
    HEAD_REFUSED_WORD_FIELD = 13,

    /* cue lists; 26 and 27 also of texts and captures */
    HEAD_REFUSED_LIST_LENGTH = 21,
    HEAD_REFUSED_RECORD = 22,
    HEAD_REFUSED_RECORD_ELEMENT = 23,
    HEAD_REFUSED_RECORD_VALUE = 24,
    HEAD_REFUSED_ROOM = 26,
    HEAD_REFUSED_LOG_ROOM = 27,

    /* bursts */
    HEAD_REFUSED_BURST_EMPTY = 31,
    HEAD_REFUSED_BURST_COMMAND = 32,
    HEAD_REFUSED_BURST_COUNT = 33,
    HEAD_REFUSED_BURST_LENGTH = 34,
    HEAD_REFUSED_BURST_ADDRESS = 35,

    /* daughter cards and the lamp panel */
    HEAD_REFUSED_FIELD = 40,
    HEAD_REFUSED_TABLE = 41,
    HEAD_REFUSED_FIELD_WIDTH = 42,
    HEAD_REFUSED_NOT_STARTED = 43,
    HEAD_REFUSED_READING_FIELD = 44,
    HEAD_REFUSED_READING_BOUNDS = 45,
    HEAD_REFUSED_READING_INFINITE = 46,

    /* an output proposed for a list; two lists */
    HEAD_REFUSED_OUTPUT = 50,
    HEAD_REFUSED_CLASH = 51,

    /* recordings */
    HEAD_REFUSED_SHOW_PACKET = 61,
    HEAD_REFUSED_SHOW_LENGTH = 62,
    HEAD_REFUSED_SHOW_BYTE = 63,
    HEAD_REFUSED_SHOW_CUT = 64,
    HEAD_REFUSED_SHOW_UNMARKED = 65,

    /* the interlock */
    HEAD_REFUSED_GUARD = 70,
    HEAD_REFUSED_PROTECTED = 71,

    /* texts */
    HEAD_REFUSED_TEXT_FORM = 81,
    HEAD_REFUSED_TEXT_NUMBER = 82,
    HEAD_REFUSED_TEXT_NAME = 83,

    /* captures */
    HEAD_REFUSED_CAPTURE = 91,
    HEAD_REFUSED_FRAME_CUT = 92,
    HEAD_REFUSED_DATAGRAM = 93,
    HEAD_REFUSED_STRAY_REPLY = 94
};

/* The store, and where each space begins in it: the element at address a of a space stands at the space's place plus a. Elements
 * have 4 bytes in space 0 and 2 in the others, low byte first. */
#define HEAD_STORE_BYTES 65728
#define HEAD_REGISTERS_AT 0       /* space 0, 65,536 bytes */
#define HEAD_EEPROM_AT 65536      /* space 2, 128 bytes, read-only below address 0x20 */
#define HEAD_STATUS_AT 65664      /* space 6, 32 bytes */
#define HEAD_INFORMATION_AT 65696 /* space 7, 32 bytes, read-only */

/* The two cells that every accepted packet changes, each of 2 bytes: the packet count, and the unlock of the EEPROM. */
#define HEAD_COUNT_AT (HEAD_STATUS_AT + 0x0A)
#define HEAD_UNLOCK_AT (HEAD_STATUS_AT + 0x1A)

/* The most bytes that a packet or its reply may have: 1,500 less 28 of IP and UDP headers. */
#define HEAD_REPLY_BYTES 1472

/* The address pointers: those of spaces 0, 2, 6 and 7, in this order, then those of their info areas. Each is at most its space's
 * number of bytes, or 16 for an info area; all are 0 in a fresh card. */
#define HEAD_POINTERS 8

/* The bytes of a command word's fields, and the numbers of a burst header's. */
#define HEAD_FIELDS 7
#define HEAD_HEADER_FIELDS 4

/* ---- A card: packets ---- */

/* Checks one packet: what head_run would answer on this store and these pointers, with a reply room of 1,472 bytes.
 * Nothing is changed, and what the store's cells hold plays no part.
 *
 *   packet    the commands, packet_length bytes; may be empty
 *   store     65,728 bytes
 *   pointers  8 numbers, each at most its space's size, or 16 for an info area
 *   value     takes the reply length in bytes, or the refusal's place
 *
 * Returns 0 if the packet would be run, else the number of the refusal: 1 (of store and pointers) to 12, as below.
 */
uint32_t head_check(const uint8_t *packet, uint64_t packet_length,
                    const uint8_t *store, uint64_t store_length,
                    const uint32_t *pointers, uint64_t pointers_length,
                    uint64_t *value);

/* Runs one packet on the store. The whole packet is checked, as head_check does, before anything is done, on the state
 * that the run finds: nothing that was checked earlier is relied on.
 *
 *   packet    the commands, packet_length bytes; may be empty
 *   store     65,728 bytes
 *   pointers  8 numbers, each at most its space's size, or 16 for an info area; 0 in a fresh card
 *   reply     room for 1,472 bytes
 *   value     takes the reply length in bytes, or the refusal's place
 *   elements  takes the number of elements moved, info reads too: the sum of the commands' counts, at most 1,460; 0 if
 *             refused
 *
 * Accepted: the elements read stand at the front of the reply, low byte first. Store and pointers are as the commands leave
 * them, but the unlock cell (0x1A of space 6) is 0, and the packet count (0x0A of space 6) is one more than the commands
 * leave there, 0 after 65,535. A command may read or write the count like any cell. A refused packet does not count.
 * Refused: the place is the offset of the command's first byte in the packet, but 0 for 1 and 2.
 *
 *    1  the store is not whole (65,728 bytes), or a pointer stands above the size of its space or info area (16 bytes);
 *       also a reply not of 1,472 bytes, and another number of pointers than 8
 *    2  the packet is above 1,472 bytes
 *    3  command word or its address cut off
 *    4  info bit set in a write
 *    5  the card has no such space: 1, 3, 4 or 5
 *    6  element size not the space's, or not 2 bytes in an info read
 *    7  count 0, no element is named
 *    8  address not a multiple of the element size, or an element past the end of the space or info area
 *    9  a write to read-only cells, any of space 7 or those of space 2 below 0x20
 *   10  a write to space 2 while the unlock is closed
 *   11  write data cut off
 *   12  the reply would pass 1,472 bytes
 */
uint32_t head_run(const uint8_t *packet, uint64_t packet_length,
                  uint8_t *store, uint64_t store_length,
                  uint32_t *pointers, uint64_t pointers_length,
                  uint8_t *reply, uint64_t reply_length,
                  uint64_t *value, uint64_t *elements);

/* Says why a packet is refused: the number and the place that head_check gives, and head_run with a reply room of 1,472
 * bytes, and the command at fault. Nothing is changed, and what the store's cells hold plays no part.
 *
 *   packet    the commands, packet_length bytes; may be empty
 *   store     65,728 bytes
 *   pointers  8 numbers, each at most its space's size, or 16 for an info area
 *   place     takes the offset of the command's first byte in the packet
 *   index     takes the command's index in the packet, from 0
 *   fields    room for the 7 bytes of head_fields; takes the command's fields, all 0 where its word is cut off (3)
 *
 * The address that the command uses is not given. If the second field is 1, it stands behind the word (for 3 it is cut off);
 * else it is the pointer of the space, or that of its info area in an info read, as the commands before leave it: head_run of
 * the bytes before the place, on a copy of store and pointers, shows it.
 * Returns 0 if the packet would be run, and place, index and fields are then 0. Else the number of the refusal:
 *
 *    1  as head_check gives it, also for another pointers_length than 8, and
 *    2  packet above 1,472 bytes: these name no command, and place, index and fields are 0
 *   3 to 12  as head_run gives them. The bytes of the packet before the place alone are a packet that is accepted, from the
 *       same store and pointers.
 *   13  fields_length is not 7; place and index are 0 and nothing else is written. This comes before 1.
 */
uint32_t head_why(const uint8_t *packet, uint64_t packet_length,
                  const uint8_t *store, uint64_t store_length,
                  const uint32_t *pointers, uint64_t pointers_length,
                  uint64_t *place, uint64_t *index,
                  uint8_t *fields, uint64_t fields_length);

/* Writes a packet as text: a line for each accepted command, in order; of a packet that is refused the lines of the commands before the
 * refused one, the refusal with its place and rule, and from 3 on the refused command with its bytes and fields.
 *
 *   packet    any bytes
 *   pointers  the eight pointers before it, as in head_run; takes those that it leaves, which are the same where it is refused
 *   out       room for the text: plain ASCII, each line with its newline, and no NUL behind it
 *   bytes     takes the text's bytes, or those needed where out is too small
 *
 * E.g. "  8: write registers 0x0010, 2 elements, increment: 0x00000001 0x00000002": the command's offset, what it does, the space,
 * the address, given or "from the pointer (0x0010)", and the values of a write. A packet of 0 bytes is "  no commands". Returns 0 also
 * of a packet that is refused: the text says so. The text stands at the front of out, and what is beyond is unchanged. It has at most
 * 69,584 bytes, whatever the packet is.
 *
 *   1   not eight pointers, or one is above the size of its space or info area; bytes 0
 *   26  out_length below the text's bytes
 */
uint32_t head_packet_text(const uint8_t *packet, uint64_t packet_length,
                          uint32_t *pointers, uint64_t pointers_length,
                          uint8_t *out, uint64_t out_length,
                          uint64_t *bytes);

/* ---- SPI bursts ---- */

/* Runs one SPI burst on space 0 of the store. The whole burst is checked before anything is done.
 *
 *   words   the words sent: a header, then at most as many words as it counts; a read ignores what these hold
 *   store   65,728 bytes
 *   answer  room for as many words as were sent
 *   value   takes the number of elements done, at most 127, or the refusal's place, which is 0
 *
 * A header, high bit first: 16 bits of address, 4 of command (0xA read, 0xB write), 1 increment, 7 of count, 4 unused.
 * Accepted: as many elements are done as words follow the header, none if it stands alone. The first word of the answer is
 * 0; the others are the cells on a read, 0 on a write.
 *
 *    1  store not 65,728 bytes, or answer_length differs from words_length
 *   31  no word
 *   32  command neither 0xA nor 0xB
 *   33  count 0
 *   34  more words than 1 plus the count
 *   35  address not a multiple of 4, or a cell that the header counts past the end of space 0, whether its word came or not
 */
uint32_t head_spi(const uint32_t *words, uint64_t words_length,
                  uint8_t *store, uint64_t store_length,
                  uint32_t *answer, uint64_t answer_length,
                  uint64_t *value);

/* ---- Command words, and headers of bursts ---- */

/* Reads a command word (in a packet its low byte comes first) into its fields.
 *
 *   fields  room for 7 bytes: write, address, info (each 0 or 1), space (0 to 7), size (0, 1, 2, 3 for elements of
 *           1, 2, 4, 8 bytes), increment (0 or 1), count (0 to 127)
 *
 * Every word has fields.
 *
 *   13  fields_length is not 7
 */
uint32_t head_fields(uint16_t word, uint8_t *fields, uint64_t fields_length);

/* Writes fields, the same 7 bytes, into a command word.
 *
 *   13  fields_length is not 7, or write, address, info or increment above 1, space above 7, size above 3 or count
 *       above 127
 */
uint32_t head_word(const uint8_t *fields, uint64_t fields_length, uint16_t *word);

/* Reads the header of an SPI burst, as head_spi describes it, into its fields.
 *
 *   fields  room for 4 numbers: address (0 to 65,535), command (0 to 15), increment (0 or 1), count (0 to 127)
 *
 * Every word has fields; its four unused bits are ignored.
 *
 *   13  fields_length is not 4
 */
uint32_t head_header(uint32_t word, uint32_t *fields, uint64_t fields_length);

/* Writes fields, the same 4 numbers, into the header of an SPI burst. Its unused bits are 0.
 *
 *   13  fields_length is not 4, address above 65,535 or increment above 1
 *   32  command neither 0xA (read) nor 0xB (write)
 *   33  count 0 or above 127
 *
 * They are asked in this order.
 */
uint32_t head_header_word(const uint32_t *fields, uint64_t fields_length, uint32_t *word);

/* ---- Cue lists ---- */

/* Compiles a cue list into packets. The whole list is checked, and the output counted, before a byte is written.
 *
 *   list     the records, list_length bytes; may be empty
 *   out      room for the output
 *   bytes    takes the output's length, or the refusal's place
 *   packets  takes the number of packets, 0 if refused
 *
 * A record: the mark "RD" (52 44), space, a spare byte 0 and a 16-bit address, low byte first; or the mark "WR" (57 52), the
 * same, and a 32-bit value, low byte first, whose upper half is 0 in a space of 2-byte elements. At most 100,000 records.
 * Accepted: before each packet stand the mark "LB" (4C 42) and its length, 2 bytes, low byte first. Running the packets in
 * order with head_run reads the values and leaves the cells that doing the records one by one would, the unlock cell and the
 * packet count apart; the count rises by the number of packets. Twice the list's length is always room enough.
 * Refused: the place is the record's index from 0, but the bytes needed for 26.
 *
 *   21  100,000 records read and bytes remain
 *   22  mark unknown, or record cut
 *   23  space not 0, 2, 6 or 7; address misaligned or past the end; write to space 7 or to space 2 below 0x20; the unlock
 *       cell (0x1A of space 6) or the packet count (0x0A of space 6), also if only read
 *   24  spare byte not 0, or upper half of a value not 0 in a space of 2-byte elements
 *   26  list good, out_length below the bytes needed
 */
uint32_t head_compile(const uint8_t *list, uint64_t list_length,
                      uint8_t *out, uint64_t out_length,
                      uint64_t *bytes, uint64_t *packets);

/* Says what is wrong with a cue list: head_compile's refusal with 21 to 24, the record at fault, and the cause. Nothing is changed.
 *
 *   list    the records, list_length bytes; may be empty
 *   place   takes the record, counted from 0
 *   offset  takes the offset of its first byte in the list
 *   cause   takes the first of the number's causes, below, that holds
 *
 * Returns 0 if head_compile would not refuse the list with 21 to 24; place, offset and cause are then 0. Else the number that
 * head_compile returns, with its place. The bytes of the list before offset alone are a list of that many records which is
 * accepted.
 *
 *   21  cause 0
 *   22  cause 1: the mark is neither "RD" nor "WR"; the record before may be one of the wrong length
 *             2: the list ends inside the record, also where it has only its first byte
 *   23  cause 1: the card has no such space
 *             2: the address is not a multiple of the element's bytes
 *             3: the element stands past the end of the space
 *             4: a write to read-only cells: space 7, or space 2 below 0x20
 *             5: the unlock cell, 0x1A of space 6
 *             6: the packet count, 0x0A of space 6
 *   24  cause 1: the spare byte is not 0
 *             2: the value is above 0xFFFF, and the space's elements have 2 bytes
 */
uint32_t head_list_why(const uint8_t *list, uint64_t list_length,
                       uint64_t *place, uint64_t *offset, uint64_t *cause);

/* Saves what can be saved of a damaged cue list. Both rooms are held against what is needed before a byte is written.
 *
 *   list     the damaged list, list_length bytes; may be empty
 *   out      room for the records kept, at least list_length bytes
 *   log      room for two numbers for each stretch skipped: its start in the list, and its length; log_length counts numbers,
 *            and an odd one over is unused
 *   bytes    takes the bytes kept, or the refusal's place
 *   entries  takes the number of stretches skipped, 0 if refused
 *
 * The list is scanned from its start. Where a record stands that head_compile would not refuse with 22 to 24, it is kept,
 * and the scan goes on behind it; any other byte is skipped, and the scan goes on behind that byte. Skipped bytes that touch
 * are one stretch.
 * Accepted: the records kept stand in out, in order, and the stretches skipped in log. head_compile takes the output, unless
 * it has more than 100,000 records (21) or the room lent there is too small (26). A good list comes out unchanged, with no
 * entries. An entry for every seven bytes of the list, and one more, is always room enough.
 *
 *   26  out_length below list_length, which is the place
 *   27  room enough in out, and log for fewer entries than needed; their number is the place
 */
uint32_t head_salvage(const uint8_t *list, uint64_t list_length,
                      uint8_t *out, uint64_t out_length,
                      uint64_t *log, uint64_t log_length,
                      uint64_t *bytes, uint64_t *entries);

/* Says whether two cue lists may be compiled apart and run in either order.
 *
 *   first   the one list's records, first_length bytes; may be empty
 *   second  the other's
 *   list    takes which list is at fault: 0 the first, 1 the second; 0 if none is
 *   place   takes the index of the record at fault, from 0; 0 if none is
 *
 * Returns 0 exactly if both lists are accepted and neither writes a cell (a space and an address) that the other names. Then
 * all packets of one list run before all of the other, in either order from the same store and pointers, are accepted, leave the
 * same store to the byte, the packet count and the unlock cell too, and read the same values for each list. The pointers at the
 * end may differ. Packets of the two lists are not to be mixed.
 * The first list's refusal goes before the second's, and both before a clash. The time is in proportion to both lists' lengths.
 * It uses about 8.5 KB of stack.
 *
 *   21 to 24  as head_compile refuses that list
 *   51        the second list's record at place writes a cell which the first names, or names a cell which the first writes; it
 *             is the first such record
 */
uint32_t head_independent(const uint8_t *first, uint64_t first_length,
                          const uint8_t *second, uint64_t second_length,
                          uint64_t *list, uint64_t *place);

/* ---- Cue lists as text ---- */

/* Makes a cue list of its text. The whole text is judged, and the room held against the bytes needed, before a byte is written.
 *
 *   text     lines, each ended by a newline, which the last may lack; text_length bytes, may be empty
 *   out      room for the list: 6 bytes for each line that reads, 10 for each that writes
 *   bytes    takes the list's bytes, or the refusal's place
 *   records  takes the number of records, 0 if refused
 *
 * Words stand apart by blanks, tabs and carriage returns; # starts a comment; capitals differ from small letters. A line is
 * empty, or one of
 *
 *   read SPACE ADDRESS            read NAME
 *   write SPACE ADDRESS VALUE     write NAME VALUE
 *   name NAME SPACE ADDRESS
 *
 * SPACE is registers, eeprom, status, information or a number up to 255, ADDRESS a number up to 65,535, VALUE one up to
 * 4,294,967,295; numbers are decimal, or hexadecimal behind 0x or 0X. A NAME has a letter first, then letters, digits, _, -
 * and ., at most 32 bytes, is none of the words read, write, name and the four spaces, and is defined once and above its
 * use; a text has at most 1,000.
 * Accepted: the list stands in out, a record for each line that reads or writes, in order. head_compile does not refuse it
 * with 21 to 24, and running its packets does what the lines say one by one.
 *
 * The place of all but 26 is the line, counted from 1: the earliest bad one, and there the first of these that applies.
 *
 *   81          its first word and its number of words are none of the five above
 *   82          a SPACE, ADDRESS or VALUE is none, or too large
 *   83          a NAME is none, not defined above, defined twice, or one too many
 *   21, 23, 24  as head_compile would refuse the record; a name that is defined is held against 23 as a read
 *   26          text good, and out_length below the bytes needed, which is the place
 */
uint32_t head_assemble(const uint8_t *text, uint64_t text_length,
                       uint8_t *out, uint64_t out_length,
                       uint64_t *bytes, uint64_t *records);

/* Writes a cue list as text, the other way round: one line for each record, ended by a newline, as in
 * "read registers 0x0010" and "write eeprom 0x0022 0xC0A8", with four digits of address and as many of value as the element has.
 *
 *   list   the records, list_length bytes; may be empty
 *   out    room for the text: at most 34 bytes for each record
 *   bytes  takes the text's bytes, or the refusal's place
 *   lines  takes the number of lines, 0 if refused
 *
 * Accepted: the text stands in out. head_assemble makes the same list of it.
 *
 *   21 to 24  as head_compile refuses the list
 *   26        list good, and out_length below the bytes needed, which is the place
 */
uint32_t head_list_text(const uint8_t *list, uint64_t list_length,
                        uint8_t *out, uint64_t out_length,
                        uint64_t *bytes, uint64_t *lines);

/* ---- A cue list in parts ---- */

/* Compiles a cue list that comes in parts, cut anywhere, inside a record too. Each call takes bytes of the part until a
 * packet is finished, which it writes; until a fault shows; or until the part ends.
 *
 *   state   HEAD_PART_BYTES bytes, all 0 before the first call; each call gets it as the last one left it
 *   part    the list's bytes that are not yet taken, as many as are there; may be empty
 *   last    not 0 where the list ends at the part's end
 *   out     room for one packet with its mark and length, at least HEAD_PART_ROOM bytes
 *   taken   takes how many bytes of the part were taken; the next call gets those behind them
 *   value   takes how many bytes were written, 0 or one packet behind the mark "LB" and its length; or the refusal's place
 *
 * A packet is finished when a record, wholly taken, opens the next one, or where the list ends. At the list's end call again,
 * with last not 0 and the bytes not yet taken, until 0 bytes are written: then all packets are out. However the list is cut,
 * the packets are those that head_compile writes for the whole list.
 * A fault of the list, 21 to 24, has the number and the place that head_compile gives the whole list. The byte that shows it
 * counts as taken; out is unchanged and the open packet is dropped; packets that came out before stand. The state keeps the
 * fault: later calls repeat it and take nothing. After the list's end calls take and write nothing and return 0.
 *
 *   26  out_length below HEAD_PART_ROOM, which is the place; nothing is taken, state and out are unchanged. This is asked first
 *       at every call, also after a fault or the list's end.
 *    1  state_length is not HEAD_PART_BYTES, or a number in the state is out of its range; place 0, nothing is taken, state and
 *       out are unchanged. The ranges: byte 0 (what stands) 0, 1 or 21 to 24; byte 1 (bytes collected of the next record) at
 *       most 9; bytes 12 to 15 (records taken), low byte first as all of these, at most 100,000; and while a packet is open,
 *       which is when bytes 22 and 23 (its length) are not both 0, these at most 1,472, bytes 24 and 25 (its reply's length) at
 *       most 1,472, byte 17 (the last command's space) at most 7, byte 20 (its count) at most 127, bytes 26 and 27 (its place
 *       behind the mark) at most the packet's length. A state that was 0 and that only these calls changed is never refused.
 *   21 to 24  as head_compile: an unknown mark at the record's second byte, 21 at the first byte behind the
 *       hundred-thousandth record, a record that is cut at the list's end (22), the others at the record's last byte
 */
#define HEAD_PART_BYTES 1504
#define HEAD_PART_ROOM 1476
uint32_t head_part(uint8_t *state, uint64_t state_length,
                   const uint8_t *part, uint64_t part_length,
                   uint32_t last,
                   uint8_t *out, uint64_t out_length,
                   uint64_t *taken, uint64_t *value);

/* ---- Packets in fewer bytes ---- */

/* Compiles a cue list into fewer bytes where it can. Parameters, records, refusals and their places are head_compile's, 26 with
 * the bytes of head_compile's own output included, so that room which is enough there is enough here.
 *
 *   list     the records, list_length bytes; may be empty
 *   out      room for head_compile's output
 *   bytes    takes the output's length, or the refusal's place
 *   packets  takes the number of packets, 0 if refused
 *
 * Accepted: the output is never longer than head_compile's, and head_tight_check accepts it with this number of packets. Its
 * packets, each behind the mark "LB" and its length, may be cut in other places than head_compile's. Running them in order
 * with head_run, from any store and any pointers that 1 does not turn away, does what the records do, as head_compile says.
 * 2 to 127 reads of one cell come out as one packet, in 8 bytes.
 *
 *   21 to 24 and 26  as head_compile
 */
uint32_t head_tighten(const uint8_t *list, uint64_t list_length,
                      uint8_t *out, uint64_t out_length,
                      uint64_t *bytes, uint64_t *packets);

/* Says whether an output, from wherever it comes, may be sent for a cue list instead of head_compile's. Nothing is changed but
 * *value.
 *
 *   list    the records, list_length bytes; may be empty
 *   output  packets, each behind the mark "LB" (4C 42) and its length, 2 bytes, low byte first; may be empty
 *   value   takes the number of packets if accepted, the refusal's place if the list is refused, 0 for 50
 *
 * Returns 0 exactly if the list is good and all of these hold: marks and lengths are sound; every packet is accepted by the
 * rules of head_run; none uses a space's pointer before it has set it; the elements that the packets read and write, in order,
 * are the list's records, but for writes of 0x5A02 to the unlock cell, which may stand anywhere; the output is no longer than
 * head_compile's. So an info read is rejected, and any other write to the unlock cell. An empty packet is accepted like any
 * other, and counts.
 * Then running the packets in order with head_run, from any store and any pointers that 1 does not turn away, reads the values
 * and leaves the cells that doing the records one by one would, the unlock cell and the packet count apart; the count rises by
 * the number of packets.
 *
 *   21 to 24  as head_compile refuses the list, whatever the output is
 *   50        list good, output rejected
 */
uint32_t head_tight_check(const uint8_t *list, uint64_t list_length,
                          const uint8_t *output, uint64_t output_length,
                          uint64_t *value);

/* ---- The interlock ---- */

/* The interlock: a guard names bytes of the store that no packet, burst or list may write, whatever it holds. It is numbers of
 * 32 bits, two for each range: its first byte in the store, and its number of bytes. A register at address a is the range a, 4;
 * a cell at address a of space 2 the range 65,536 + a, 2. A range of no bytes protects nothing.
 *
 * The guard is lent to each call and is not changed. After any calls of head_guarded_run and head_guarded_spi with the same
 * guard, on any store and pointers, every protected byte is as it was before them.
 *
 *   70  the guard is not sound: half a pair at the end, a pair beyond the 64th, first byte plus bytes above 65,728 (whatever
 *       the sum), or a byte of the unlock cell (0x1A of space 6) or of the packet count (0x0A of space 6), which every accepted
 *       packet changes. The place is the index of the earliest pair at fault, from 0. This comes before all else, 1 too.
 *   71  a write to a protected cell, by what would otherwise be accepted. Writing the value that stands there is a write. A
 *       read is never refused for the guard. */

/* The most ranges that a guard may have. */
#define HEAD_GUARD_RANGES 64

/* Says whether a guard is sound.
 *
 *   guard  two numbers for each range, guard_length numbers in all; may be empty
 *   value  takes the number of ranges, or the refusal's place
 *
 *   70  as above
 */
uint32_t head_guard(const uint32_t *guard, uint64_t guard_length, uint64_t *value);

/* Checks one packet with a guard: what head_guarded_run would answer, with a reply room of 1,472 bytes. Nothing is changed.
 *
 *   packet, store, pointers, value  as in head_check
 *   guard                           as in head_guard
 *
 * Returns what head_check returns, with the same value, but for these:
 *
 *   70  as above, before all else
 *   71  head_check accepts the packet, and it writes a protected byte; the place is the offset of the first command that does
 */
uint32_t head_guarded_check(const uint8_t *packet, uint64_t packet_length,
                            const uint8_t *store, uint64_t store_length,
                            const uint32_t *pointers, uint64_t pointers_length,
                            const uint32_t *guard, uint64_t guard_length,
                            uint64_t *value);

/* Runs one packet on the store with a guard.
 *
 *   packet, store, pointers, reply, value, elements  as in head_run
 *   guard                                            as in head_guard
 *
 * Does and returns what head_run does, but for these, which change nothing:
 *
 *   70  as above, before all else
 *   71  head_run would accept the packet, and it writes a protected byte; the place is the offset of the first command that
 *       does
 */
uint32_t head_guarded_run(const uint8_t *packet, uint64_t packet_length,
                          uint8_t *store, uint64_t store_length,
                          uint32_t *pointers, uint64_t pointers_length,
                          uint8_t *reply, uint64_t reply_length,
                          const uint32_t *guard, uint64_t guard_length,
                          uint64_t *value, uint64_t *elements);

/* Runs one SPI burst on space 0 of the store with a guard.
 *
 *   words, store, answer, value  as in head_spi
 *   guard                        as in head_guard
 *
 * Does and returns what head_spi does, but for these, which change nothing:
 *
 *   70  as above, before all else
 *   71  head_spi would accept the burst, which is a write, and a cell that its header counts is protected, whether its word
 *       came or not; place 0
 */
uint32_t head_guarded_spi(const uint32_t *words, uint64_t words_length,
                          uint8_t *store, uint64_t store_length,
                          uint32_t *answer, uint64_t answer_length,
                          const uint32_t *guard, uint64_t guard_length,
                          uint64_t *value);

/* Holds a cue list against a guard, before the show. Nothing is changed but *value.
 *
 *   list   the records, list_length bytes; may be empty
 *   guard  as in head_guard
 *   value  takes the number of records, or the refusal's place
 *
 * Returns 0 exactly if the guard is sound, the list is good and no record writes a protected byte. Then every packet of
 * head_compile's output for the list, and of every output that head_tight_check accepts for it, is accepted by
 * head_guarded_run with this guard, from any store and pointers that 1 does not turn away. Of a list that is refused with 71
 * head_guarded_run refuses a packet.
 *
 *   70        as above, before all else
 *   21 to 24  as head_compile refuses the list
 *   71        the list is good, and a record writes a protected byte; the place is the first that does
 */
uint32_t head_guarded_list(const uint8_t *list, uint64_t list_length,
                           const uint32_t *guard, uint64_t guard_length,
                           uint64_t *value);

/* ---- Recordings and captures ---- */

/* Judges a recorded show: packets and replies in turn, each behind the mark "LB" (4C 42) and its length, 2 bytes, low byte
 * first. A packet that reads nothing has a reply of length 0.
 *
 *   show      the recording, show_length bytes; may be empty
 *   store     65,728 bytes, as the show begins
 *   pointers  8 numbers, as in head_run
 *   index     takes the number of packets judged if all is well; the packet at fault, from 0, for 61 to 63; the part, from 0,
 *             for 64 and 65; 0 for 1
 *   place     takes the wrong byte's place in its reply for 63, else 0
 *
 * Returns 0 if the recording is whole, every packet is accepted by the rules of head_run, and every reply is what they give, each
 * packet run from the state that the one before left. Otherwise the first fault:
 *
 *    1  as in head_run, of store and pointers
 *   61  a packet that is refused
 *   62  a reply of another length
 *   63  a reply of the right length with a wrong byte
 *   64  cut: the recording ends inside a part, or where a reply should begin
 *   65  a part without the mark
 *
 * Store and pointers are left as the packets accepted so far leave them, also where a reply is then at fault. 1 is asked
 * before all else.
 */
uint32_t head_judge(const uint8_t *show, uint64_t show_length,
                    uint8_t *store, uint64_t store_length,
                    uint32_t *pointers, uint64_t pointers_length,
                    uint64_t *index, uint64_t *place);

/* Makes a recording for head_judge of a capture file: classic pcap, as tcpdump writes it and Wireshark saves it on demand.
 *
 *   capture  the file, capture_length bytes
 *   out      room for the recording: each packet and its reply, each behind the mark "LB" and its length
 *   frames   room for one number for each packet: its frame in the capture, counted from 1 as Wireshark does (the low 32 bits
 *            of it, in a file of more than 64 GB); frames_length counts numbers
 *   bytes    takes the recording's bytes, or the refusal's place
 *   packets  takes the number of packets, 0 if refused
 *
 * Read are files of either byte order, with microseconds or nanoseconds, of the link types 0 (null), 1 (Ethernet, also with
 * one tag 0x8100), 12, 101 and 228 (raw), 113 and 276 (Linux cooked). The card's address is the destination of the first UDP
 * datagram over IPv4 to port 27181. A request is a datagram to that address and port, a reply any other one from them. All
 * other frames are passed over, those too whose ports can't be seen: a link or IP header not wholly captured, another
 * version, a header length below 5 words, a later fragment, fewer than four captured bytes behind the IP header. A reply
 * belongs to the request before it; a request that has none before the next request or the end has a reply of no bytes.
 * Checksums are not looked at.
 * Accepted: the recording stands in out and the frames' numbers in frames. A recording has fewer bytes than its capture.
 *
 *   91  no capture that is read here: fewer than 24 bytes, another magic, another link type; place 0
 *   92  a frame that is cut: fewer bytes than its header has, or than it says were captured; the place is the frame, from 1, as
 *       for 93 and 94
 *   93  a datagram of the card that isn't whole: more fragments follow, the UDP length is below 8 or not the IP packet's length
 *       less its header, or bytes of it were not captured; padding behind it is fine
 *   94  a second reply to a request
 *   26  capture good, out_length below the bytes needed, which are the place
 *   27  room enough in out, and frames_length below the packets, whose number is the place
 */
uint32_t head_capture(const uint8_t *capture, uint64_t capture_length,
                      uint8_t *out, uint64_t out_length,
                      uint32_t *frames, uint64_t frames_length,
                      uint64_t *bytes, uint64_t *packets);

/* ---- Daughter cards ---- */

/* Daughter cards: serial cards whose memory holds a process table, which describes the card's fields.
 *
 * In the four functions below, memory is the card's memory from address 0, table the address of its table in it. Fields stand in a
 * channel's three registers in table order, from the low bit of the first word upward, inputs (read from the card) and outputs
 * (written to it) apart; a field of both directions stands in both. A value is 64 bits: of a signed field (types 3 and 5) two's
 * complement of its own width, sign-extended; of any other, pads too, its plain bits.
 *
 *   41  the table needs a byte past memory_length (an entry, a record, a string's NUL), or a record, type, mode type or
 *       direction is not one that the card's manual lists
 *   42  a field of 0 or more than 64 bits, or more than 96 bits in one direction
 *   40  see each function
 *
 * 41 comes first, wherever in the table it is found, then 42, then 40. */

/* The words of a field. */
#define HEAD_FIELD_WORDS 7

/* The registers of eight channels, three words each, and how many values a direction has at most. */
#define HEAD_REGISTERS 24
#define HEAD_FIELD_VALUES 96

/* How many fields the table has.
 *
 *   inputs, outputs  take the number of fields each way, both 0 if refused; a field of both directions counts in both
 */
uint32_t head_table(const uint8_t *memory, uint64_t memory_length, uint16_t table,
                    uint64_t *inputs, uint64_t *outputs);

/* One field of the table.
 *
 *   index  from 0, in table order over both directions; mode records are not counted
 *   field  room for 7 words: width in bits, type, direction byte (0x00 input, 0x40 both, 0x80 output), the bits of minimum
 *          and of maximum (IEEE-754), and the places in memory of unit and name, each ended by a NUL
 *
 *   40  index past the last field, or field_length is not 7
 */
uint32_t head_field(const uint8_t *memory, uint64_t memory_length, uint16_t table, uint64_t index,
                    uint32_t *field, uint64_t field_length);

/* Packs the values of one direction into the registers of one channel.
 *
 *   direction  0 inputs, 1 outputs
 *   channel    0 to 7
 *   values     one for each field of that direction, in table order
 *   registers  24 words: three for channel 0, three for channel 1, ..
 *
 * Accepted: all 96 bits of the channel are written, those that no field has as 0; the other channels are unchanged.
 *
 *   40  direction above 1, channel above 7, registers_length not 24, values_length not the number of fields, or a value
 *       that does not fit its field
 */
uint32_t head_pack(const uint8_t *memory, uint64_t memory_length, uint16_t table, uint32_t direction, uint32_t channel,
                   const uint64_t *values, uint64_t values_length,
                   uint32_t *registers, uint64_t registers_length);

/* Unpacks the values of one direction from the registers of one channel, the other way round.
 *
 *   values  room for one value for each field of that direction
 *
 *   40  direction above 1, channel above 7, registers_length not 24, or values_length not the number of fields
 */
uint32_t head_unpack(const uint8_t *memory, uint64_t memory_length, uint16_t table, uint32_t direction, uint32_t channel,
                     const uint32_t *registers, uint64_t registers_length,
                     uint64_t *values, uint64_t values_length);

/* ---- The lamp panel ---- */

/* The lamp panel: starts exchanges for the channels in asked, where bit c of a mask stands for channel c.
 *
 *   started  the channels that are started
 *   mask     takes the mask asked for, only if accepted
 *
 *   43  asked names a channel that is not in started
 */
uint32_t head_panel_start(uint8_t asked, uint8_t started, uint8_t *mask);

/* The lamp panel: what became of the channels in asked. Channels of faults that were not asked don't count.
 *
 *   asked_count   takes how many channels were asked
 *   failed_count  takes how many of these failed
 *   lowest        takes the lowest of these that failed, 8 if none did
 */
void head_panel_report(uint8_t asked, uint8_t faults,
                       uint8_t *asked_count, uint8_t *failed_count, uint8_t *lowest);

/* The lamp panel: a field's reading. It is the value as a float, times the maximum, divided by one less than 2 to the
 * width, in that order, each step rounded once (IEEE 754's binary32, ties to even).
 *
 *   type          the field's data type, as the card's table has it
 *   width         the field's bits
 *   minimum_bits, maximum_bits  the bounds, as the bits of a float that stand in the table
 *   reading_bits  takes the reading, as the bits of a float, only if accepted; it is never a NaN
 *
 *   44  type not 2 (unsigned, not the nonvolatile 4), width not 1 to 24, or value too large for the width
 *   45  a bound that is an infinity or a NaN, or a maximum not above the minimum
 *   46  the value times the maximum is not finite
 *
 * They are asked in this order.
 */
uint32_t head_panel_reading(uint32_t type, uint32_t width, uint64_t value,
                            uint32_t minimum_bits, uint32_t maximum_bits, uint32_t *reading_bits);

/* ---- What a number means ---- */

/* Says what a number means, in a sentence: one that a function here returned, or any other.
 *
 *   number  the number; 0 is "accepted"
 *   out     room for the sentence: plain ASCII, with no newline and no NUL behind it; HEAD_SENTENCE_BYTES are always enough
 *   bytes   takes the sentence's bytes, or if refused those needed
 *
 * Where a number means different things to different functions (1, 26 and 33), the sentence names them all. Of a number that
 * means nothing it says so.
 * Accepted: the sentence stands in out.
 *
 *   26  out_length below the sentence's bytes
 */
#define HEAD_SENTENCE_BYTES 100
uint32_t head_sentence(uint32_t number,
                       uint8_t *out, uint64_t out_length,
                       uint64_t *bytes);

#ifdef __cplusplus
}
#endif

#endif

/* What it costs, in bytes, by tools/costs; docs/FIRMWARE.md has the rest:
 *
 *                                 x86_64-linux  aarch64-linux  riscv64-linux    armv7-linux      cortex-m4      cortex-m0
 *   code                                71,491         66,028         60,926         94,084         75,154         75,396
 *   constants                            9,313          6,076          7,961          3,329          3,329          3,329
 *   data                                     0              0              0              0              0              0
 *   stack of head_assemble               8,776          8,576          8,704          8,688          8,640          8,756
 *   stack of head_capture                  400            368            400            316            280            364
 *   stack of head_check                    240            144            160            224            208            252
 *   stack of head_compile                  512            288            304            384            392            448
 *   stack of head_field                    296            128            176            176            160            192
 *   stack of head_fields                   136              0              0              0             16              8
 *   stack of head_guard                    144              0              0             40             40             60
 *   stack of head_guarded_check            304            192            192            272            264            324
 *   stack of head_guarded_list             384            208            208            248            248            304
 *   stack of head_guarded_run              592            448            432            528            512            628
 *   stack of head_guarded_spi              352            176            176            192            184            240
 *   stack of head_header                   136              0              0              0              0              8
 *   stack of head_header_word              136              0              0              8              0             16
 *   stack of head_independent            8,640          8,464          8,480          8,480          8,472          8,544
 *   stack of head_judge                  2,112          1,936          1,952          2,096          2,016          2,124
 *   stack of head_list_text                368            128            112            128            128            176
 *   stack of head_list_why                 256             80             80             88             88            144
 *   stack of head_pack                     424            288            336            320            288            344
 *   stack of head_packet_text            7,344          7,184          7,328          7,096          7,080          7,192
 *   stack of head_panel_reading            136              0              0              8              8             32
 *   stack of head_panel_report             136              0              0             16             16             24
 *   stack of head_panel_start              136              0              0              0              0              0
 *   stack of head_part                     904          1,008          1,168            948            856          1,240
 *   stack of head_run                      480            336            336            456            456            500
 *   stack of head_salvage                  352            160            144            160            152            224
 *   stack of head_sentence                 184             48             32             32             32             48
 *   stack of head_spi                      272            144            160            136            128            144
 *   stack of head_table                    296            144            176            192            184            216
 *   stack of head_tight_check              640            384            512            520            520            592
 *   stack of head_tighten                  992            656            832            800            784            912
 *   stack of head_unpack                   408            240            288            280            264            320
 *   stack of head_why                      592            432            512            520            488            556
 *   stack of head_word                     168              0              0             16             16             32
 *
 * A stack is the deepest that the call can need, without that of the functions of libc and libgcc that are named below. No
 * function is reached from itself, none asks for memory, and none keeps anything between calls, so that calls which are lent
 * different memory may run at the same time. On a Cortex-M4 a packet takes at most 240,171 instructions in head_run, a burst
 * 1,075 in head_spi, a record of a list 469 in head_compile.
 * x86_64-linux needs memcpy (libc), memset (libc). Registers beyond the integer ones: assemble, capture, check, compile,
 *   field, fields, guarded_check, guarded_list, guarded_run, guarded_spi, independent, judge, pack, packet_text,
 *   panel_reading, part, run, sentence, spi, table, tight_check, tighten, unpack, why.
 * aarch64-linux needs memcpy (libc), memset (libc). Registers beyond the integer ones: assemble, capture, check, compile,
 *   field, fields, guarded_check, guarded_run, guarded_spi, header, judge, list_text, pack, packet_text, panel_reading,
 *   panel_report, part, run, sentence, spi, table, tight_check, tighten, unpack, why.
 * riscv64-linux needs memcpy (libc), memset (libc). Registers beyond the integer ones: panel_reading.
 * armv7-linux needs memcpy (libc), memset (libc). Registers beyond the integer ones: assemble, capture, check, compile,
 *   field, guarded_check, guarded_list, guarded_run, guarded_spi, independent, judge, pack, packet_text, panel_reading,
 *   part, run, sentence, spi, table, tight_check, tighten, unpack, why.
 * cortex-m4 needs __aeabi_memclr (libc), __aeabi_memclr4 (libc), __aeabi_memclr8 (libc), __aeabi_memcpy (libc),
 *   __aeabi_uldivmod (libgcc). Registers beyond the integer ones: panel_reading.
 * cortex-m0 needs __aeabi_fcmplt (libgcc), __aeabi_fdiv (libgcc), __aeabi_fmul (libgcc), __aeabi_llsl (libgcc), __aeabi_llsr
 *   (libgcc), __aeabi_lmul (libgcc), __aeabi_memclr (libc), __aeabi_memclr4 (libc), __aeabi_memclr8 (libc), __aeabi_memcpy
 *   (libc), __aeabi_ui2f (libgcc), __aeabi_uidivmod (libgcc), __aeabi_uldivmod (libgcc). Registers beyond the integer ones:
 *   none.
 */
