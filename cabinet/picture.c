/* picture.c - writes the two pictures as SVG: latency against bound, and the service of one link over time. */

#include <stdio.h>
#include <stdlib.h>

#include "cabinet.h"

#define FONT "font-family='sans-serif' font-size='12'"

static FILE *begin(const char *path, int width, int height)
{
    FILE *f = fopen(path, "w");

    if (f != NULL)
        fprintf(f, "<svg xmlns='http://www.w3.org/2000/svg' width='%d' height='%d' viewBox='0 0 %d %d' " FONT ">\n"
                "<rect width='%d' height='%d' fill='white'/>\n", width, height, width, height, width, height);
    return f;
}

static int finish(FILE *f)
{
    int written = fprintf(f, "</svg>\n") > 0;

    return fclose(f) == 0 && written;
}

static void text(FILE *f, double x, double y, const char *anchor, const char *words)
{
    fprintf(f, "<text x='%.1f' y='%.1f' text-anchor='%s'>%s</text>\n", x, y, anchor, words);
}

static void line(FILE *f, double x1, double y1, double x2, double y2, const char *style)
{
    fprintf(f, "<path d='M%.1f %.1fL%.1f %.1f' %s/>\n", x1, y1, x2, y2, style);
}

/* Axes of a plot: where its origin lies, pixels per unit, and the range. */
struct frame {
    double left, zero, x_unit, y_unit;
    int x_max, y_min, y_max;
};

static double x_at(const struct frame *a, double x) { return a->left + a->x_unit * x; }
static double y_at(const struct frame *a, double y) { return a->zero - a->y_unit * y; }

/* Grid lines and numbers at steps; no numbers on the x axis if its step is 0. */
static void draw_frame(FILE *f, const struct frame *a, int x_step, int y_step)
{
    char number[16];

    for (int y = a->y_min; y <= a->y_max; y += y_step) {
        line(f, a->left, y_at(a, y), x_at(a, a->x_max), y_at(a, y), y == 0 ? "stroke='black'" : "stroke='#ddd'");
        sprintf(number, "%d", y);
        text(f, a->left - 6, y_at(a, y) + 4, "end", number);
    }
    for (int x = 0; x_step > 0 && x <= a->x_max; x += x_step) {
        sprintf(number, "%d", x);
        text(f, x_at(a, x), a->zero + 16, "middle", number);
    }
    line(f, a->left, y_at(a, a->y_min), a->left, y_at(a, a->y_max), "stroke='black'");
}

/* ---- Latency against bound ---- */

#define MARGIN 60
#define GAP 30
#define PITCH 2 /* pixels from column to column */
#define Y_STEP 50
#define BOUND_STYLE "stroke='#c0392b' stroke-width='1.6'"
#define RANGE_STYLE "stroke='#7fb3d5' stroke-width='1.5'"
#define MEAN_STYLE "stroke='#1a5276' stroke-width='1.6'"

static int by_bound(const void *a, const void *b)
{
    return ((const struct column *)a)->bound - ((const struct column *)b)->bound;
}

/* A panel with one pixel for a tick. */
static void draw_panel(FILE *f, struct panel *panel, const struct frame *a)
{
    char words[96];

    qsort(panel->column, (size_t)panel->columns, sizeof panel->column[0], by_bound);
    draw_frame(f, a, 0, Y_STEP);
    sprintf(words, "horizon %d: %d channel ends, by bound", panel->horizon, panel->columns);
    text(f, a->left + 8, y_at(a, a->y_max) + 14, "start", words);
    fprintf(f, "<path " RANGE_STYLE " d='");
    for (int i = 0; i < panel->columns; i++)
        fprintf(f, "M%.0f %.0fV%.0f", x_at(a, i) + PITCH / 2, y_at(a, (double)panel->column[i].least),
                y_at(a, (double)panel->column[i].most));
    fprintf(f, "'/>\n<path " MEAN_STYLE " d='");
    for (int i = 0; i < panel->columns; i++)
        fprintf(f, "M%.0f %.0fh%d", x_at(a, i), y_at(a, panel->column[i].mean), PITCH);
    fprintf(f, "'/>\n<path " BOUND_STYLE " d='");
    for (int i = 0; i < panel->columns; i++)
        fprintf(f, "M%.0f %dh%d", x_at(a, i), (int)y_at(a, panel->column[i].bound), PITCH);
    fprintf(f, "'/>\n");
}

/* Rounds a number up to a grid line. */
static int grid_above(int y)
{
    return (y + Y_STEP - 1) / Y_STEP * Y_STEP;
}

int picture_latency(const char *path, struct panel *panel, int panels)
{
    int most = 0, columns = 0, y = MARGIN;
    FILE *f;

    for (int i = 0; i < panels; i++) {
        panel[i].least = 0;
        if (panel[i].columns > columns)
            columns = panel[i].columns;
        for (int k = 0; k < panel[i].columns; k++) {
            if (panel[i].column[k].bound > most)
                most = panel[i].column[k].bound;
            if (panel[i].column[k].least < panel[i].least)
                panel[i].least = (int)panel[i].column[k].least;
        }
    }
    most = grid_above(most);
    for (int i = 0; i < panels; i++)
        y += most + grid_above(-panel[i].least) + GAP;
    f = begin(path, PITCH * columns + 2 * MARGIN, y);
    if (f == NULL)
        return 0;
    text(f, MARGIN, 20, "start", "End-to-end latency under admitted load, in ticks after the logical arrival time at "
         "the source (below 0: sent early)");
    line(f, MARGIN, 38, MARGIN + 16, 38, BOUND_STYLE);
    text(f, MARGIN + 22, 42, "start", "bound");
    line(f, MARGIN + 90, 38, MARGIN + 106, 38, MEAN_STYLE);
    text(f, MARGIN + 112, 42, "start", "mean");
    line(f, MARGIN + 180, 38, MARGIN + 196, 38, "stroke='#7fb3d5' stroke-width='8'");
    text(f, MARGIN + 202, 42, "start", "least to most");
    y = MARGIN;
    for (int i = 0; i < panels; i++) {
        int below = grid_above(-panel[i].least);
        struct frame a = {MARGIN, y + most, PITCH, 1, panel[i].columns, -below, most};

        draw_panel(f, &panel[i], &a);
        y += most + below + GAP;
    }
    return finish(f);
}

/* ---- Figure 10 ---- */

#define FIG_WIDTH 560
#define FIG_HEIGHT 380
#define FIG_PACKETS 120

int picture_fig10(const char *path, const struct service *service)
{
    static const char *const colour[FIG10_CONNECTIONS + 1] = {"#1f77b4", "#2ca02c", "#d62728", "#555"};
    struct frame a = {MARGIN, 40 + FIG_HEIGHT, (double)FIG_WIDTH / FIG10_TICKS, (double)FIG_HEIGHT / FIG_PACKETS,
                      FIG10_TICKS, 0, FIG_PACKETS};
    FILE *f = begin(path, MARGIN + FIG_WIDTH + 150, FIG_HEIGHT + 100);
    char words[64];

    if (f == NULL)
        return 0;
    text(f, MARGIN, 22, "start", "Packets sent on one link, horizon 0 (dashed: one packet each I_min)");
    draw_frame(f, &a, 40, 20);
    text(f, MARGIN + FIG_WIDTH / 2, FIG_HEIGHT + 80, "middle", "ticks");
    for (int i = 0; i <= FIG10_CONNECTIONS; i++) {
        const int *packets = service->packets[i];
        double end = y_at(&a, packets[FIG10_TICKS]);

        if (i < FIG10_CONNECTIONS) {
            fprintf(f, "<path stroke='%s' stroke-dasharray='3 3' stroke-width='0.8' d='M%.1f %.1fL%.1f %.1f'/>\n",
                    colour[i], x_at(&a, 0), y_at(&a, 0), x_at(&a, FIG10_TICKS),
                    y_at(&a, (double)FIG10_TICKS / service->interval[i]));
            sprintf(words, "d = %d, I_min = %d", service->delay[i], service->interval[i]);
        } else {
            sprintf(words, "best-effort");
        }
        fprintf(f, "<path fill='none' stroke='%s' stroke-width='1.6' d='M%.1f %.1f", colour[i], x_at(&a, 0),
                y_at(&a, 0));
        for (int t = 1; t <= FIG10_TICKS; t++) {
            if (packets[t] != packets[t - 1])
                fprintf(f, "H%.1fV%.1f", x_at(&a, t), y_at(&a, packets[t]));
        }
        fprintf(f, "H%.1f'/>\n<g fill='%s'>", x_at(&a, FIG10_TICKS), colour[i]);
        text(f, MARGIN + FIG_WIDTH + 8, end + 4, "start", words);
        fprintf(f, "</g>\n");
    }
    return finish(f);
}
