/* What is counted. The numbers stand in RAM for a debugger, 32 bits each, and start again at 0 after the last. */
#ifndef COUNTERS_H
#define COUNTERS_H

#include <stdint.h>

/* Every frame is counted once as what it was: from ARP to DROPPED_OTHER. */
enum counter {
    FRAMES,             /* that came */
    ARP,                /* requests for our address, answered */
    ECHO,               /* ICMP echo requests, answered */
    PACKETS,            /* datagrams that were given to the controller */
    DROPPED_DAMAGED,    /* the board says so */
    DROPPED_LONG,       /* more than 1,514 bytes */
    DROPPED_CUT,        /* the frame ends before what its headers say */
    DROPPED_LENGTH,     /* lengths in the headers that don't agree */
    DROPPED_CHECKSUM,   /* of IP, ICMP or UDP */
    DROPPED_FRAGMENT,   /* a part of a datagram */
    DROPPED_ADDRESS,    /* not for us, or from an address that no answer may go to */
    DROPPED_OTHER,      /* another protocol, another kind of message, or another port */
    REFUSED,            /* packets that the controller refused */
    OUTSIDE,            /* packets that were answered outside the library */
    REPLIES,            /* frames sent */
    UNSENT,             /* replies for which the board had no room */
    LINES_LOST,         /* lines of text likewise */
    COUNTERS
};

extern uint32_t counters[COUNTERS];

#endif
