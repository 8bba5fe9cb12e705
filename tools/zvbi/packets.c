/* Reads raw pairs from standard input and writes a line for each packet of extended data that libzvbi reports, as the
   program `packets` does: the number of the pair with the end, class, type, contents in hex, contents as text. */
#include <libzvbi.h>
#include <stdio.h>
#include <stdlib.h>

/* The number of the pair that is read, from 0 on. */
static unsigned long number;

static int character(uint8_t byte) { return byte >= 0x20 && byte <= 0x7E ? byte : '.'; }

static vbi_bool report(vbi_xds_demux *demux, const vbi_xds_packet *packet, void *nothing) {
    (void)demux, (void)nothing;
    printf("%lu packet %u %02X ", number, packet->xds_class + 1, packet->xds_subclass);
    for (unsigned i = 0; i < packet->buffer_size; i++) printf("%02X", packet->buffer[i]);
    printf(" \"");
    for (unsigned i = 0; i < packet->buffer_size; i++) putchar(character(packet->buffer[i]));
    printf("\"\n");
    return TRUE;
}

int main(void) {
    vbi_xds_demux *demux = vbi_xds_demux_new(report, NULL);
    uint8_t pair[2];

    if (demux == NULL) {
        fprintf(stderr, "packets: there is no memory\n");
        return EXIT_FAILURE;
    }
    for (; fread(pair, 1, 2, stdin) == 2; number++) vbi_xds_demux_feed(demux, pair);
    vbi_xds_demux_delete(demux);
    if (ferror(stdin) || fflush(stdout) != 0) {
        perror("packets");
        return EXIT_FAILURE;
    }
    return EXIT_SUCCESS;
}
