/* A capture of tcpdump or Wireshark: would our card have answered like that? The capture is made a recording, and this is judged.
 * usage: captures FILE.pcap */
#include "head.h"

#include <stdio.h>
#include <string.h>

/* A recording has fewer bytes than its capture, and a packet takes at least 16 bytes of it. */
#define MOST (1 << 20)
static uint8_t capture[MOST], show[MOST], store[HEAD_STORE_BYTES];
static uint32_t frames[MOST / 16], pointers[HEAD_POINTERS];

static uint64_t read_file(const char *name)
{
    FILE *file = fopen(name, "rb");
    size_t bytes = 0;

    if (file != NULL) {
        bytes = fread(capture, 1, sizeof capture, file);
        fclose(file);
    }
    return bytes;
}

int main(int count, char **words)
{
    /* What the card held when the capture began, as far as it is known: HostMot2's cookie in register 0x100. */
    static const uint8_t cookie[] = {0xFE, 0xCA, 0xAA, 0x55};
    uint64_t length = count > 1 ? read_file(words[1]) : 0, bytes = 0, packets = 0, index = 0, place = 0;
    uint32_t refused = head_capture(capture, length, show, sizeof show, frames, sizeof frames / sizeof frames[0], &bytes, &packets);

    if (refused != HEAD_ACCEPTED) {
        printf("refused %lu at frame %lu\n", (unsigned long)refused, (unsigned long)bytes);
        return 1;
    }
    printf("%lu packets, a recording of %lu bytes\n", (unsigned long)packets, (unsigned long)bytes);
    memcpy(store + HEAD_REGISTERS_AT + 0x100, cookie, sizeof cookie);
    refused = head_judge(show, bytes, store, sizeof store, pointers, HEAD_POINTERS, &index, &place);
    switch (refused) {
    case HEAD_ACCEPTED:
        printf("every reply is our card's\n");
        break;
    case HEAD_REFUSED_SHOW_PACKET:
        printf("packet %lu, frame %lu: our card refuses it\n", (unsigned long)index, (unsigned long)frames[index]);
        break;
    case HEAD_REFUSED_SHOW_LENGTH:
        printf("packet %lu, frame %lu: a reply of another length\n", (unsigned long)index, (unsigned long)frames[index]);
        break;
    case HEAD_REFUSED_SHOW_BYTE:
        printf("packet %lu, frame %lu: byte %lu of the reply is another\n", (unsigned long)index, (unsigned long)frames[index],
               (unsigned long)place);
        break;
    default:
        printf("refused %lu\n", (unsigned long)refused);
    }
    return 0;
}
