/* Sends a packet with a label over the loopback and reads the label of the packet that came. It is run by hand, as root, on Linux:
 *
 *   gcc -O2 -Iinclude examples/packet.c target/staticlib/libbalqirven.a -o packet && ./packet LABEL [MAPPING]
 *
 * MAPPING is a mapping write, for instance `./packet Archive 'Archive 9 1 63'`; without one the label goes as its own bits, at level 250. To see the
 * packet, run beside it: tshark -i lo -V -f 'udp and ip[0] > 0x45'
 *
 * A kernel with NetLabel (CONFIG_NETLABEL) looks at a CIPSO option too, when it is set and when it comes: it takes only a DOI that it knows, and refuses
 * any other with EINVAL. So before this is run it has to be told DOI 3, with tags of type 1, and levels and categories as they are:
 *
 *   netlabelctl cipsov4 add pass doi:3 tags:1       afterwards: netlabelctl cipsov4 del doi:3
 */
#include "balqirven.h"

#include <arpa/inet.h>
#include <netinet/in.h>
#include <netinet/ip.h>
#include <stdio.h>
#include <string.h>
#include <sys/socket.h>
#include <sys/time.h>

enum { CIPSO = 134 };

/* Each side has tables of its own. */
struct tables {
    uint64_t words[BQ_WORDS];
    uint8_t labels[BQ_LABELS], entries[BQ_ENTRIES];
};
static struct tables sender, receiver;
#define TABLES(t) (t)->labels, BQ_LABELS, (t)->entries, BQ_ENTRIES, (t)->words, BQ_WORDS
#define TEXT(s) (const uint8_t *)(s), strlen(s)

static int failed(const char *what)
{
    perror(what);
    return 1;
}

static bool prepare(struct tables *t, const char *mapping)
{
    bq_written w = bq_fresh_table(TABLES(t));
    if (!w.refused && mapping)
        w = bq_mapping(TABLES(t), TEXT(mapping));
    if (w.refused)
        printf("the table or the mapping is refused with %d\n", w.number);
    return !w.refused;
}

static void print_bytes(const char *what, const uint8_t *bytes, size_t length)
{
    printf("%s:", what);
    for (size_t i = 0; i < length; i++)
        printf(" %d", bytes[i]);
    printf("\n");
}

/* The CIPSO option among the options of a packet, cut at its own total length: what is behind it is padding or another option. The length is 0 where there
 * is none, or none that is whole. */
static size_t find_option(const uint8_t *options, size_t length, const uint8_t **option)
{
    for (size_t i = 0; i < length && options[i] != IPOPT_EOL;) {
        if (options[i] == IPOPT_NOP) {
            i++;
            continue;
        }
        if (i + 1 >= length || options[i + 1] < 2 || options[i + 1] > length - i)
            return 0;
        if (options[i] == CIPSO) {
            *option = options + i;
            return options[i + 1];
        }
        i += options[i + 1];
    }
    return 0;
}

/* Receives a packet and its options; how many bytes of options there were, or -1. */
static ssize_t receive(int from, uint8_t *options, size_t room)
{
    char text[64];
    _Alignas(struct cmsghdr) char control[256];
    struct iovec vector = {text, sizeof text};
    struct msghdr message = {.msg_iov = &vector, .msg_iovlen = 1, .msg_control = control, .msg_controllen = sizeof control};
    if (recvmsg(from, &message, 0) < 0)
        return -1;
    for (struct cmsghdr *c = CMSG_FIRSTHDR(&message); c; c = CMSG_NXTHDR(&message, c))
        if (c->cmsg_level == IPPROTO_IP && c->cmsg_type == IP_RECVOPTS) {
            size_t length = c->cmsg_len - CMSG_LEN(0);
            if (length > room)
                length = room;
            memcpy(options, CMSG_DATA(c), length);
            return (ssize_t)length;
        }
    return 0;
}

int main(int argc, char **argv)
{
    if (argc != 2 && argc != 3) {
        fprintf(stderr, "usage: packet LABEL [MAPPING]\n");
        return 2;
    }
    if (!prepare(&sender, argc > 2 ? argv[2] : NULL) || !prepare(&receiver, argc > 2 ? argv[2] : NULL))
        return 1;

    /* The option, and zero bytes behind it up to a multiple of four. */
    uint8_t options[MAX_IPOPTLEN] = {0};
    bq_length written = bq_write_option(TABLES(&sender), TEXT(argv[1]), options, BQ_LONGEST_OPTION);
    if (written.refused) {
        printf("the label is refused with %d\n", written.number);
        return 1;
    }
    socklen_t filled = (socklen_t)((written.length + 3) / 4 * 4);
    print_bytes("written", options, written.length);
    print_bytes("filled up", options, filled);

    int on = 1, to = socket(AF_INET, SOCK_DGRAM, 0), from = socket(AF_INET, SOCK_DGRAM, 0);
    struct sockaddr_in address = {.sin_family = AF_INET, .sin_addr.s_addr = htonl(INADDR_LOOPBACK)};
    socklen_t address_len = sizeof address;
    struct timeval patience = {2, 0};
    if (to < 0 || from < 0)
        return failed("socket");
    if (bind(from, (struct sockaddr *)&address, sizeof address) || getsockname(from, (struct sockaddr *)&address, &address_len))
        return failed("bind");
    if (setsockopt(from, IPPROTO_IP, IP_RECVOPTS, &on, sizeof on) || setsockopt(from, SOL_SOCKET, SO_RCVTIMEO, &patience, sizeof patience))
        return failed("setsockopt of the receiver");
    if (setsockopt(to, IPPROTO_IP, IP_OPTIONS, options, filled))
        return failed("setsockopt IP_OPTIONS (if the argument is invalid: does the kernel know DOI 3?)");
    if (sendto(to, "reading", 7, 0, (struct sockaddr *)&address, sizeof address) < 0)
        return failed("sendto");

    uint8_t came[MAX_IPOPTLEN];
    ssize_t came_len = receive(from, came, sizeof came);
    if (came_len < 0)
        return failed("recvmsg");
    print_bytes("came", came, (size_t)came_len);

    const uint8_t *option = came;
    size_t option_len = find_option(came, (size_t)came_len, &option);
    bq_peer peer = bq_read_option(TABLES(&receiver), option, option_len); /* of no option: BQ_BAD_OPTION */
    if (peer.refused) {
        printf("the option is refused with %d\n", peer.number);
        return 1;
    }
    printf("read: %.*s\n", (int)peer.length, (const char *)peer.bytes);
    return peer.length == strlen(argv[1]) && memcmp(peer.bytes, argv[1], peer.length) == 0 ? 0 : 1;
}
