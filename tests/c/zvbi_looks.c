/* zvbi_looks [-p]: how screens look to libzvbi's level 1 decoder of teletext, an independent reading of the same attributes.

   Reads screens of 960 bytes from standard input, one after another: 24 rows of 40 codes, 20..7F or 80..9F. For each it prints 24
   lines of 40 cells, each cell as: unicode (four hex digits), foreground, background (one digit each), 'f' or '-' for flash,
   'c' or '-' for conceal, size (0 single, 2 upper half, 6 lower half; without -p also 1, 3, 4, 5, 7 for double width and size).
   A mosaic's unicode is EE00 (separated) or EE20 (contiguous) plus its code less 20.

   -p: the codes that Prestel lacks and libzvbi obeys (80 and 90, black foreground; 8E and 8F, double width and size) are handed on
   as 8A, which changes nothing that is printed here.

   Cells 0..7 of row 0 can't be set: libzvbi writes its page number there. Build: cc -O2 -o zvbi_looks zvbi_looks.c -lzvbi */
#include <libzvbi.h>
#include <stdio.h>
#include <string.h>

static int prestel;

static unsigned char seven(unsigned c)
{
    if (prestel && (c == 0x80 || c == 0x90 || c == 0x8E || c == 0x8F))
        c = 0x8A;
    return vbi_par8(c & 0x7F);
}

static void address(unsigned char *b, int magazine, int row)
{
    b[0] = vbi_ham8((magazine & 7) | (row & 1) << 3);
    b[1] = vbi_ham8(row >> 1);
}

static void ignore(vbi_event *e, void *u)
{
    (void)e;
    (void)u;
}

static void start(vbi_sliced *s, int row)
{
    memset(s, 0, sizeof *s);
    s->id = VBI_SLICED_TELETEXT_B;
    s->line = 7;
    address(s->data, 1, row);
}

/* A header: of page 100 with the cells of row 0, or of no page, which ends the one before. */
static void header(vbi_decoder *d, const unsigned char *cells, int page, double t)
{
    vbi_sliced s;
    start(&s, 0);
    s.data[2] = s.data[3] = vbi_ham8(page ? 0 : 0xF);
    for (int i = 4; i < 10; i++)
        s.data[i] = vbi_ham8(i == 5 ? 8 : 0); /* C4, erase */
    for (int c = 8; c < 40; c++)
        s.data[2 + c] = page ? seven(cells[c]) : vbi_par8(0x20);
    vbi_decode(d, &s, 1, t);
}

int main(int words, char **word)
{
    unsigned char cells[960];
    prestel = words > 1 && !strcmp(word[1], "-p");
    while (fread(cells, 1, 960, stdin) == 960) {
        vbi_decoder *d = vbi_decoder_new();
        vbi_page pg;
        vbi_sliced s;
        double t = 1;
        vbi_event_handler_register(d, VBI_EVENT_TTX_PAGE, ignore, 0);
        vbi_teletext_set_default_region(d, 0); /* English */
        vbi_teletext_set_level(d, VBI_WST_LEVEL_1);
        header(d, cells, 1, t += 0.04);
        for (int r = 1; r < 24; r++) {
            start(&s, r);
            for (int c = 0; c < 40; c++)
                s.data[2 + c] = seven(cells[r * 40 + c]);
            vbi_decode(d, &s, 1, t += 0.04);
        }
        header(d, cells, 0, t += 0.04);
        if (!vbi_fetch_vt_page(d, &pg, 0x100, VBI_ANY_SUBNO, VBI_WST_LEVEL_1, 25, FALSE)) {
            fprintf(stderr, "zvbi_looks: no page\n");
            return 1;
        }
        for (int r = 0; r < 24; r++) {
            for (int c = 0; c < 40; c++) {
                vbi_char *q = &pg.text[r * pg.columns + c];
                printf("%04x%d%d%c%c%x ", q->unicode, q->foreground, q->background, q->flash ? 'f' : '-', q->conceal ? 'c' : '-', q->size);
            }
            putchar('\n');
        }
        vbi_unref_page(&pg);
        vbi_decoder_delete(d);
    }
    return 0;
}
