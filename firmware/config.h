/* What is chosen when the firmware is built. `firmware/build` sets what is asked for with -D. */
#ifndef CONFIG_H
#define CONFIG_H

/* The card's addresses. 10.0.2.15 is what QEMU's user network expects of its guest. */
#define OWN_MAC 0x02, 0x00, 0x00, 0x00, 0x00, 0x92
#ifndef OWN_IP
#define OWN_IP 10, 0, 2, 15
#endif

/* LBP16's port. */
#define PORT 27181

/* Where they are defined:
 *   GUARD      bytes of the store that no packet may write, two numbers for each range: the first, and how many
 *   HOSTMOT2   the store begins with the cells that tools look for in a HostMot2 board
 *   TICKS      the instructions that each answer took are said; see ticks.h
 */

#endif
