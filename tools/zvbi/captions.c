/* Reads raw pairs of field two from standard input and writes what libzvbi's caption decoder then shows: a line for each row
   that has text, without the spaces around it. */
#include <libzvbi.h>
#include <stdio.h>
#include <stdlib.h>

enum { SERVICES = 4 };

static void ignore(vbi_event *event, void *nothing) { (void)event, (void)nothing; }

static int character(const vbi_char *cell) { return cell->unicode > 0x20 && cell->unicode < 0x7F ? (int)cell->unicode : ' '; }

static void show_row(const vbi_char *cells, int columns) {
    int first = 0;

    while (columns > 0 && character(&cells[columns - 1]) == ' ') columns--;
    while (first < columns && character(&cells[first]) == ' ') first++;
    if (first == columns) return;
    for (; first < columns; first++) putchar(character(&cells[first]));
    putchar('\n');
}

static void show(vbi_decoder *decoder, int service) {
    vbi_page page;

    if (!vbi_fetch_cc_page(decoder, &page, service, FALSE)) return;
    for (int row = 0; row < page.rows; row++) show_row(&page.text[row * page.columns], page.columns);
    vbi_unref_page(&page);
}

int main(void) {
    vbi_decoder *decoder = vbi_decoder_new();
    vbi_sliced line = {.id = VBI_SLICED_CAPTION_525_F2, .line = 284};
    double time = 1;

    if (decoder == NULL || !vbi_event_handler_register(decoder, VBI_EVENT_CAPTION, ignore, NULL)) {
        fprintf(stderr, "captions: there is no memory\n");
        return EXIT_FAILURE;
    }
    for (; fread(line.data, 1, 2, stdin) == 2; time += 1001 / 30000.0) vbi_decode(decoder, &line, 1, time);
    for (int service = 1; service <= SERVICES; service++) show(decoder, service);
    vbi_decoder_delete(decoder);
    if (ferror(stdin) || fflush(stdout) != 0) {
        perror("captions");
        return EXIT_FAILURE;
    }
    return EXIT_SUCCESS;
}
