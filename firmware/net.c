/* A frame is looked at once, from the outside in, and every length is held against the bytes that came before it is used. Nothing
 * of it is kept: an answer goes back to the addresses that the frame came from. */
#include "net.h"

#include <string.h>

#include "config.h"
#include "controller.h"
#include "counters.h"

enum { MAC_BYTES = 6, IP_BYTES = 4 };
enum { ETHERNET_HEADER = 14, ARP_MESSAGE = 28, IP_HEADER = 20, UDP_HEADER = 8, ICMP_HEADER = 8 };
enum { TYPE_IP = 0x0800, TYPE_ARP = 0x0806, ARP_ETHERNET = 1, ARP_REQUEST = 1, ARP_REPLY = 2 };
enum { PROTOCOL_ICMP = 1, PROTOCOL_UDP = 17, ECHO_REQUEST = 8, ECHO_REPLY = 0 };
enum { FRAGMENT_BITS = 0x3FFF, DO_NOT_FRAGMENT = 0x4000, TIME_TO_LIVE = 64, CHECKSUM_GOOD = 0xFFFF };

_Static_assert(ETHERNET_HEADER + IP_HEADER + UDP_HEADER + HEAD_REPLY_BYTES == FRAME_BYTES, "a reply fits a frame");

static const uint8_t own_mac[MAC_BYTES] = {OWN_MAC};
static const uint8_t own_ip[IP_BYTES] = {OWN_IP};

uint32_t counters[COUNTERS];

static uint32_t drop(enum counter cause)
{
    counters[cause]++;
    return 0;
}

static uint32_t two_at(const uint8_t *bytes)
{
    return (uint32_t)bytes[0] << 8 | bytes[1];
}

static void put_two(uint8_t *bytes, uint32_t number)
{
    bytes[0] = (uint8_t)(number >> 8);
    bytes[1] = (uint8_t)number;
}

static int is_own_mac(const uint8_t *mac)
{
    return memcmp(mac, own_mac, MAC_BYTES) == 0;
}

static int is_broadcast(const uint8_t *mac)
{
    return (mac[0] & mac[1] & mac[2] & mac[3] & mac[4] & mac[5]) == 0xFF;
}

static int is_own_ip(const uint8_t *ip)
{
    return memcmp(ip, own_ip, IP_BYTES) == 0;
}

/* Whether an answer may go there: to one other machine, not to a group, to all, to ourselves or to no one. */
static int is_other_ip(const uint8_t *ip)
{
    return ip[0] != 0 && ip[0] != 127 && ip[0] < 224 && !is_own_ip(ip);
}

/* The sum of the words, high byte first, that a checksum is made of; an odd byte stands in the high half. */
static uint32_t sum(const uint8_t *bytes, uint32_t length, uint32_t before)
{
    uint32_t all = before;
    for (uint32_t k = 0; k + 1 < length; k += 2)
        all += two_at(bytes + k);
    if (length % 2)
        all += (uint32_t)bytes[length - 1] << 8;
    return all;
}

static uint32_t folded(uint32_t all)
{
    uint32_t once = (all & 0xFFFF) + (all >> 16);
    return (once & 0xFFFF) + (once >> 16);
}

/* UDP's checksum is also over the two IP addresses, the protocol and the length. */
static uint32_t udp_sum(const uint8_t *ip, const uint8_t *udp, uint32_t length)
{
    return folded(sum(udp, length, sum(ip + 12, 2 * IP_BYTES, PROTOCOL_UDP + length)));
}

static void put_ethernet(uint8_t *answer, const uint8_t *target, uint32_t type)
{
    memcpy(answer, target, MAC_BYTES);
    memcpy(answer + MAC_BYTES, own_mac, MAC_BYTES);
    put_two(answer + 2 * MAC_BYTES, type);
}

/* Puts the headers before so many bytes for the sender of a frame, and answers the bytes of the whole. */
static uint32_t put_ip(uint8_t *answer, const uint8_t *frame, uint8_t protocol, uint32_t length)
{
    uint8_t *ip = answer + ETHERNET_HEADER;
    put_ethernet(answer, frame + MAC_BYTES, TYPE_IP);
    memset(ip, 0, IP_HEADER);
    ip[0] = 0x45;
    put_two(ip + 2, IP_HEADER + length);
    put_two(ip + 6, DO_NOT_FRAGMENT);
    ip[8] = TIME_TO_LIVE;
    ip[9] = protocol;
    memcpy(ip + 12, own_ip, IP_BYTES);
    memcpy(ip + 16, frame + ETHERNET_HEADER + 12, IP_BYTES);
    put_two(ip + 10, ~folded(sum(ip, IP_HEADER, 0)));
    return ETHERNET_HEADER + IP_HEADER + length;
}

/* An ARP message from us to a MAC address and an IP address, one behind the other. */
static uint32_t put_arp(uint8_t *answer, const uint8_t *target, uint32_t operation, const uint8_t *about)
{
    static const uint8_t kind[] = {0, ARP_ETHERNET, TYPE_IP >> 8, TYPE_IP & 0xFF, MAC_BYTES, IP_BYTES};
    uint8_t *message = answer + ETHERNET_HEADER;
    put_ethernet(answer, target, TYPE_ARP);
    memcpy(message, kind, sizeof kind);
    put_two(message + 6, operation);
    memcpy(message + 8, own_mac, MAC_BYTES);
    memcpy(message + 14, own_ip, IP_BYTES);
    memcpy(message + 18, about, MAC_BYTES + IP_BYTES);
    return ETHERNET_HEADER + ARP_MESSAGE;
}

/* A request for our address. The sender's IP may be 0: so a machine asks whether the address is taken. */
static uint32_t arp(const uint8_t *frame, uint32_t length, uint8_t *answer)
{
    static const uint8_t nobody[IP_BYTES];
    const uint8_t *message = frame + ETHERNET_HEADER, *sender = message + 8;
    if (length < ETHERNET_HEADER + ARP_MESSAGE)
        return drop(DROPPED_CUT);
    if (two_at(message) != ARP_ETHERNET || two_at(message + 2) != TYPE_IP)
        return drop(DROPPED_OTHER);
    if (message[4] != MAC_BYTES || message[5] != IP_BYTES)
        return drop(DROPPED_LENGTH);
    if (two_at(message + 6) != ARP_REQUEST)
        return drop(DROPPED_OTHER);
    if (!is_own_ip(message + 24) || memcmp(sender, frame + MAC_BYTES, MAC_BYTES) != 0)
        return drop(DROPPED_ADDRESS);
    if (!is_other_ip(sender + MAC_BYTES) && memcmp(sender + MAC_BYTES, nobody, IP_BYTES) != 0)
        return drop(DROPPED_ADDRESS);
    counters[ARP]++;
    return put_arp(answer, sender, ARP_REPLY, sender);
}

uint32_t net_announcement(uint8_t answer[FRAME_ROOM])
{
    static const uint8_t all[] = {0xFF, 0xFF, 0xFF, 0xFF, 0xFF, 0xFF}, nobody_of_our_ip[] = {0, 0, 0, 0, 0, 0, OWN_IP};
    return put_arp(answer, all, ARP_REQUEST, nobody_of_our_ip);
}

static uint32_t icmp(const uint8_t *frame, const uint8_t *message, uint32_t length, uint8_t *answer)
{
    uint8_t *reply = answer + ETHERNET_HEADER + IP_HEADER;
    if (length < ICMP_HEADER)
        return drop(DROPPED_LENGTH);
    if (folded(sum(message, length, 0)) != CHECKSUM_GOOD)
        return drop(DROPPED_CHECKSUM);
    if (message[0] != ECHO_REQUEST || message[1] != 0)
        return drop(DROPPED_OTHER);
    counters[ECHO]++;
    memcpy(reply, message, length);
    reply[0] = ECHO_REPLY;
    put_two(reply + 2, 0);
    put_two(reply + 2, ~folded(sum(reply, length, 0)));
    return put_ip(answer, frame, PROTOCOL_ICMP, length);
}

/* The reply's datagram to the sender of a frame. A checksum of 0 is sent as 0xFFFF, since 0 says that there is none. */
static uint32_t put_udp(uint8_t *answer, const uint8_t *frame, const uint8_t *request, uint32_t length)
{
    uint8_t *datagram = answer + ETHERNET_HEADER + IP_HEADER;
    uint32_t bytes = put_ip(answer, frame, PROTOCOL_UDP, UDP_HEADER + length);
    put_two(datagram, PORT);
    put_two(datagram + 2, two_at(request));
    put_two(datagram + 4, UDP_HEADER + length);
    put_two(datagram + 6, 0);
    uint32_t all = udp_sum(answer + ETHERNET_HEADER, datagram, UDP_HEADER + length);
    put_two(datagram + 6, all == 0xFFFF ? 0xFFFF : ~all);
    return bytes;
}

/* From our own port comes another card's reply, which is no packet; from port 0 nobody waits for an answer. */
static uint32_t udp(const uint8_t *frame, const uint8_t *datagram, uint32_t length, uint8_t *answer)
{
    if (length < UDP_HEADER || two_at(datagram + 4) != length)
        return drop(DROPPED_LENGTH);
    if (two_at(datagram + 6) != 0 && udp_sum(frame + ETHERNET_HEADER, datagram, length) != CHECKSUM_GOOD)
        return drop(DROPPED_CHECKSUM);
    if (two_at(datagram + 2) != PORT || two_at(datagram) == PORT || two_at(datagram) == 0)
        return drop(DROPPED_OTHER);
    counters[PACKETS]++;
    uint8_t *reply = answer + ETHERNET_HEADER + IP_HEADER + UDP_HEADER;
    uint32_t bytes = controller_answer(datagram + UDP_HEADER, length - UDP_HEADER, reply);
    return bytes == 0 ? 0 : put_udp(answer, frame, datagram, bytes);
}

/* A time to live of 0 and options are no reason to drop what has arrived; options are passed over. */
static uint32_t ipv4(const uint8_t *frame, uint32_t length, uint8_t *answer)
{
    const uint8_t *ip = frame + ETHERNET_HEADER;
    if (length < ETHERNET_HEADER + IP_HEADER)
        return drop(DROPPED_CUT);
    if (ip[0] >> 4 != 4)
        return drop(DROPPED_OTHER);
    uint32_t header = 4 * (ip[0] & 0x0Fu), total = two_at(ip + 2);
    if (header < IP_HEADER || total < header)
        return drop(DROPPED_LENGTH);
    if (total > length - ETHERNET_HEADER)
        return drop(DROPPED_CUT);
    if (folded(sum(ip, header, 0)) != CHECKSUM_GOOD)
        return drop(DROPPED_CHECKSUM);
    if (!is_own_mac(frame) || !is_own_ip(ip + 16) || !is_other_ip(ip + 12))
        return drop(DROPPED_ADDRESS);
    if (two_at(ip + 6) & FRAGMENT_BITS)
        return drop(DROPPED_FRAGMENT);
    if (ip[9] == PROTOCOL_ICMP)
        return icmp(frame, ip + header, total - header, answer);
    if (ip[9] == PROTOCOL_UDP)
        return udp(frame, ip + header, total - header, answer);
    return drop(DROPPED_OTHER);
}

uint32_t net_answer(const uint8_t *frame, uint32_t length, uint8_t answer[FRAME_ROOM])
{
    if (length > FRAME_BYTES)
        return drop(DROPPED_LONG);
    if (length < ETHERNET_HEADER)
        return drop(DROPPED_CUT);
    if (!is_own_mac(frame) && !is_broadcast(frame))
        return drop(DROPPED_ADDRESS);
    /* The first byte's low bit is that of a group. */
    if (is_own_mac(frame + MAC_BYTES) || frame[MAC_BYTES] & 1)
        return drop(DROPPED_ADDRESS);
    if (two_at(frame + 2 * MAC_BYTES) == TYPE_ARP)
        return arp(frame, length, answer);
    if (two_at(frame + 2 * MAC_BYTES) == TYPE_IP)
        return ipv4(frame, length, answer);
    return drop(DROPPED_OTHER);
}
