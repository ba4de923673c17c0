// A plot of the pages read over a full expansion, as in Larson's Figures 2 and 3: two sweeps drawn solid, four dotted.
// The SVG is written by hand.
#include <stdio.h>

#include "paper.h"

enum { WIDTH = 860, HEIGHT = 900, LEFT = 80, RIGHT = 826, TICKS = 7 };

static const char *const OURS = "#1f4e9c", *const HIS = "#c4571b";

// A part of the picture with its own upward scale from `low`; `step` lies between two ticks.
struct panel {
    FILE *out;
    double top, bottom, low, high, step;
};

struct curve {
    const struct cost *points;
    double (*of)(struct cost);
    const char *colour, *name;
    bool dotted;
};

static double hit_of(struct cost cost) {
    return cost.hit;
}

static double miss_of(struct cost cost) {
    return cost.miss;
}

static double his_of(struct cost cost) {
    return cost.his;
}

static double x_of(double pages) {
    return LEFT + (RIGHT - LEFT) * (pages - FIRST) / FIRST;
}

static double y_of(const struct panel *panel, double value) {
    return panel->bottom - (panel->bottom - panel->top) * (value - panel->low) / (panel->high - panel->low);
}

static void text(const struct panel *panel, double x, double y, const char *anchor, const char *words) {
    fprintf(panel->out, "<text x=\"%.1f\" y=\"%.1f\" text-anchor=\"%s\">%s</text>\n", x, y, anchor, words);
}

static void line(const struct panel *panel, double x1, double y1, double x2, double y2, const char *look) {
    fprintf(panel->out, "<line x1=\"%.1f\" y1=\"%.1f\" x2=\"%.1f\" y2=\"%.1f\" %s/>\n", x1, y1, x2, y2, look);
}

static double highest(const struct curve curves[], int count) {
    double high = 1;
    for (int i = 0; i < count * (CURVE + 1); i++) {
        const struct curve *curve = &curves[i / (CURVE + 1)];
        double value = curve->of(curve->points[i % (CURVE + 1)]);
        if (value > high)
            high = value;
    }
    return high;
}

// Round steps of 1, 2 or 5 times a power of ten, as small as the number of ticks allows.
static void set_scale(struct panel *panel, double high) {
    static const double round[] = {0.01, 0.02, 0.05, 0.1, 0.2, 0.5, 1, 2, 5, 10, 20, 50};
    int i = 0;
    while (i < 11 && (high - 1) / round[i] > TICKS)
        i++;
    panel->low = panel->high = 1;
    panel->step = round[i];
    while (panel->high < high)
        panel->high += panel->step;
}

static void draw_heights(const struct panel *panel) {
    char words[32];
    for (double value = panel->low; value < panel->high + panel->step / 2; value += panel->step) {
        double y = y_of(panel, value);
        line(panel, LEFT, y, RIGHT, y, "stroke=\"#dddddd\"");
        line(panel, LEFT - 5, y, LEFT, y, "stroke=\"black\"");
        snprintf(words, sizeof words, panel->step < 0.1 ? "%.2f" : "%.1f", value);
        text(panel, LEFT - 10, y + 5, "end", words);
    }
}

// A tick for each eighth of the expansion.
static void draw_sizes(const struct panel *panel) {
    char words[32];
    for (int i = 0; i <= 8; i++) {
        int pages = FIRST + FIRST * i / 8;
        line(panel, x_of(pages), panel->bottom, x_of(pages), panel->bottom + 5, "stroke=\"black\"");
        snprintf(words, sizeof words, "%d", pages);
        text(panel, x_of(pages), panel->bottom + 21, "middle", words);
    }
    text(panel, (LEFT + RIGHT) / 2, panel->bottom + 44, "middle", "pages grown to");
}

static void draw_frame(const struct panel *panel, const char *title) {
    draw_heights(panel);
    draw_sizes(panel);
    double middle = x_of(1.5 * FIRST);
    line(panel, middle, panel->top, middle, panel->bottom, "stroke=\"#999999\" stroke-dasharray=\"6 4\"");
    text(panel, x_of(1.25 * FIRST), panel->top - 8, "middle", "first partial expansion");
    text(panel, x_of(1.75 * FIRST), panel->top - 8, "middle", "second partial expansion");
    fprintf(panel->out, "<rect x=\"%d\" y=\"%.1f\" width=\"%d\" height=\"%.1f\" fill=\"none\" stroke=\"black\"/>\n",
            LEFT, panel->top, RIGHT - LEFT, panel->bottom - panel->top);
    fprintf(panel->out, "<text x=\"%d\" y=\"%.1f\" font-size=\"17\" font-weight=\"bold\">%s</text>\n", LEFT,
            panel->top - 32, title);
    fprintf(panel->out, "<text transform=\"translate(24 %.1f) rotate(-90)\" text-anchor=\"middle\">pages read</text>\n",
            (panel->top + panel->bottom) / 2);
}

static const char *dashes(const struct curve *curve) {
    return curve->dotted ? " stroke-dasharray=\"0.1 5.5\"" : "";
}

static void draw_curve(const struct panel *panel, const struct curve *curve) {
    fprintf(panel->out,
            "<polyline fill=\"none\" stroke=\"%s\" stroke-width=\"2.5\" stroke-linejoin=\"round\" "
            "stroke-linecap=\"round\"%s points=\"",
            curve->colour, dashes(curve));
    for (int i = 0; i <= CURVE; i++)
        fprintf(panel->out, "%.1f,%.1f ", x_of(FIRST + FIRST * i / CURVE), y_of(panel, curve->of(curve->points[i])));
    fprintf(panel->out, "\"/>\n");
}

static void draw_legend(const struct panel *panel, const struct curve curves[], int count) {
    double left = RIGHT - 270, top = panel->top + 12;
    fprintf(panel->out, "<rect x=\"%.1f\" y=\"%.1f\" width=\"258\" height=\"%d\" fill=\"white\" stroke=\"#999999\"/>\n",
            left, top, 10 + 22 * count);
    for (int i = 0; i < count; i++) {
        double y = top + 16 + 22 * i;
        fprintf(panel->out,
                "<line x1=\"%.1f\" y1=\"%.1f\" x2=\"%.1f\" y2=\"%.1f\" stroke=\"%s\" stroke-width=\"2.5\" "
                "stroke-linecap=\"round\"%s/>\n",
                left + 12, y, left + 56, y, curves[i].colour, dashes(&curves[i]));
        text(panel, left + 68, y + 5, "start", curves[i].name);
    }
}

static void draw_panel(struct panel panel, const char *title, const struct curve curves[], int count) {
    set_scale(&panel, highest(curves, count));
    draw_frame(&panel, title);
    for (int i = 0; i < count; i++)
        draw_curve(&panel, &curves[i]);
    draw_legend(&panel, curves, count);
}

static void draw(FILE *out, const struct cost *two, const struct cost *four, int loadings) {
    struct curve hits[] = {{two, hit_of, OURS, "2 sweeps", false}, {four, hit_of, OURS, "4 sweeps", true}};
    struct curve misses[] = {
        {two, his_of, HIS, "2 sweeps, by his rule", false},
        {four, his_of, HIS, "4 sweeps, by his rule", true},
        {two, miss_of, OURS, "2 sweeps, ours", false},
        {four, miss_of, OURS, "4 sweeps, ours", true},
    };
    fprintf(out,
            "<svg xmlns=\"http://www.w3.org/2000/svg\" viewBox=\"0 0 %d %d\" width=\"%d\" height=\"%d\" "
            "font-family=\"sans-serif\" font-size=\"14\">\n",
            WIDTH, HEIGHT, WIDTH, HEIGHT);
    fprintf(out, "<rect width=\"%d\" height=\"%d\" fill=\"white\"/>\n", WIDTH, HEIGHT);
    draw_panel((struct panel){out, 70, 360, 1, 1, 1}, "Successful searches (as in his Figure 2)", hits, 2);
    draw_panel((struct panel){out, 500, 790, 1, 1, 1}, "Unsuccessful searches (as in his Figure 3)", misses, 4);
    fprintf(out,
            "<text x=\"%d\" y=\"%d\" fill=\"#555555\">Pages of %d records, load 0.8, n0 2, mean of %d "
            "loadings.</text>\n</svg>\n",
            LEFT, HEIGHT - 18, SLOTS, loadings);
}

void plot(const char *name, struct effort effort) {
    static struct cost two[CURVE + 1], four[CURVE + 1];
    FILE *out = fopen(name, "w");
    if (!out)
        stop("the plot's file can't be written", 0);
    product_curve((struct kind){2, 2, 80}, effort, two);
    product_curve((struct kind){2, 4, 80}, effort, four);
    draw(out, two, four, effort.loadings);
    if (fclose(out) != 0)
        stop("the plot isn't written whole", 0);
}
