/*
 * Drawing for modem.c: plots with time to the right, one below the other. Places are whole numbers, tenths of a unit of
 * the picture, so that it is the same on every machine.
 */
#ifndef SVG_H
#define SVG_H

#include <inttypes.h>
#include <stdio.h>

#define SVG_LEFT 840u /* the edges of every plot */
#define SVG_RIGHT 8800u

/* A plot: its upper and lower edge, the last instant, and the top of its scale. */
typedef struct {
    uint64_t top, floor, end, most;
} svg_plot;

static inline uint64_t svg_x(const svg_plot *plot, uint64_t time)
{
    return SVG_LEFT + (SVG_RIGHT - SVG_LEFT) * time / plot->end;
}

static inline uint64_t svg_y(const svg_plot *plot, uint64_t value)
{
    return plot->floor - (plot->floor - plot->top) * (value < plot->most ? value : plot->most) / plot->most;
}

static inline void svg_number(FILE *to, uint64_t tenths)
{
    fprintf(to, "%" PRIu64 ".%" PRIu64, tenths / 10, tenths % 10);
}

static inline void svg_begin(FILE *to, uint64_t width, uint64_t height)
{
    fprintf(to, "<svg xmlns=\"http://www.w3.org/2000/svg\" viewBox=\"0 0 %" PRIu64 " %" PRIu64 "\" width=\"%" PRIu64
            "\" height=\"%" PRIu64 "\" font-family=\"Helvetica, Arial, DejaVu Sans, sans-serif\" font-size=\"14\" "
            "fill=\"#333\">\n<rect width=\"100%%\" height=\"100%%\" fill=\"white\"/>\n", width, height, width, height);
}

/* A line of text; `style` has its anchor, and what else is wanted. */
static inline void svg_text(FILE *to, uint64_t x, uint64_t y, const char *style, const char *words)
{
    fprintf(to, "<text x=\"");
    svg_number(to, x);
    fprintf(to, "\" y=\"");
    svg_number(to, y);
    fprintf(to, "\" %s>%s</text>\n", style, words);
}

static inline void svg_name(FILE *to, uint64_t x, uint64_t y, const char *colour, const char *words)
{
    char style[96];
    snprintf(style, sizeof style, "text-anchor=\"start\" font-weight=\"bold\" fill=\"%s\"", colour);
    svg_text(to, x, y, style, words);
}

/* A band from one instant to another, through the plots from the first to the last. */
static inline void svg_band(FILE *to, const svg_plot *first, const svg_plot *last, uint64_t from, uint64_t until)
{
    uint64_t x = svg_x(first, from), width = svg_x(first, until) - x;
    fprintf(to, "<rect x=\"");
    svg_number(to, x);
    fprintf(to, "\" y=\"");
    svg_number(to, first->top);
    fprintf(to, "\" width=\"");
    svg_number(to, width > 15 ? width : 15);
    fprintf(to, "\" height=\"");
    svg_number(to, last->floor - first->top);
    fprintf(to, "\" fill=\"#eee3d0\"/>\n");
}

/* A line from left to right for every so much, with its value, and what the plot is of. */
static inline void svg_grid(FILE *to, const svg_plot *plot, uint64_t every, const char *words)
{
    for (uint64_t value = 0; value <= plot->most; value += every) {
        char number[24];
        fprintf(to, "<path d=\"M84 ");
        svg_number(to, svg_y(plot, value));
        fprintf(to, "H880\" stroke=\"#ccc\"/>\n");
        snprintf(number, sizeof number, "%" PRIu64, value);
        svg_text(to, SVG_LEFT - 100, svg_y(plot, value) + 50, "text-anchor=\"end\"", number);
    }
    svg_text(to, SVG_LEFT, plot->top - 80, "text-anchor=\"start\"", words);
}

/* A line in steps begins at a value; svg_step goes on with it, and svg_end ends it, in a colour and, dashed say, a
 * style. */
static inline void svg_step(FILE *to, const svg_plot *plot, uint64_t time, uint64_t value)
{
    fprintf(to, time == 0 ? "<path d=\"M" : "H");
    svg_number(to, svg_x(plot, time));
    fprintf(to, time == 0 ? " " : "V");
    svg_number(to, svg_y(plot, value));
}

static inline void svg_end(FILE *to, const char *colour, const char *style)
{
    fprintf(to, "\" fill=\"none\" stroke=\"%s\" stroke-width=\"2\"%s/>\n", colour, style);
}

#endif /* SVG_H */
