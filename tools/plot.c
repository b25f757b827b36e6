#include "plot.h"

#include <math.h>

enum { WIDTH = 360, HEIGHT = 240, LEFT = 64, TOP = 36, GAP = 72 };

static const char *const colours[] = {"#1f5f99", "#c2571a", "#3a7d34"};
static const char *const names[] = {"first order (tv)", "second order (tgv)"};

/* One panel: which total, its left edge, its scales. */
struct panel {
    int which, left;
    uint32_t steps;
    double top;
};

/* The least of 1, 2, 5 times a power of ten that is not below x; 1 where x isn't above 0. */
static double nice(double x)
{
    if (!(x > 0))
        return 1;
    double unit = pow(10, floor(log10(x)));
    for (int i = 0; i < 3; i++) {
        double k = unit * (double[]){1, 2, 5}[i];
        if (k >= x)
            return k;
    }
    return 10 * unit;
}

static double x_of(const struct panel *p, uint32_t step)
{
    return p->left + (p->steps > 1 ? WIDTH * ((double)(step - 1) / (p->steps - 1)) : 0);
}

static double y_of(const struct panel *p, double total)
{
    return TOP + HEIGHT * (1 - total / p->top);
}

static struct panel panel_of(const struct solved *s, int which, int left)
{
    struct panel p = {.which = which, .left = left, .steps = 1};
    double most = 0;
    for (uint32_t r = 0; r < s->runs; r++) {
        if (s->steps[r] > p.steps)
            p.steps = s->steps[r];
        for (uint32_t k = 0; k < s->steps[r]; k++) {
            double t = totals_at(s, r, k)[which];
            if (isfinite(t) && t > most)
                most = t;
        }
    }
    p.top = nice(most);
    return p;
}

static void frame(const struct panel *p, struct bytes *svg)
{
    add_text(svg, "<text x=\"%d\" y=\"%d\" text-anchor=\"middle\" font-weight=\"bold\">%s</text>\n", p->left + WIDTH / 2, TOP - 14, names[p->which]);
    for (int i = 0; i < 5; i++) {
        double v = p->top * i / 4, y = y_of(p, v);
        add_text(svg, "<line x1=\"%d\" y1=\"%.1f\" x2=\"%d\" y2=\"%.1f\" stroke=\"#ddd\"/>\n", p->left, y, p->left + WIDTH, y);
        add_text(svg, "<text x=\"%d\" y=\"%.1f\" text-anchor=\"end\">%g</text>\n", p->left - 6, y + 4, v);
    }
    uint32_t marks[] = {1, p->steps / 2, p->steps};
    for (int i = 0; i < 3; i++)
        if (marks[i] > 0 && (i == 0 || marks[i] > marks[i - 1]))
            add_text(svg, "<text x=\"%.1f\" y=\"%d\" text-anchor=\"middle\">%u</text>\n", x_of(p, marks[i]), TOP + HEIGHT + 18, marks[i]);
    add_text(svg, "<text x=\"%d\" y=\"%d\" text-anchor=\"middle\">step</text>\n", p->left + WIDTH / 2, TOP + HEIGHT + 36);
}

static void curve(const struct panel *p, const struct solved *s, uint32_t r, struct bytes *svg)
{
    add_text(svg, "<polyline fill=\"none\" stroke=\"%s\" stroke-width=\"1.8\" points=\"", colours[r]);
    for (uint32_t k = 0; k < s->steps[r]; k++) {
        double t = totals_at(s, r, k)[p->which];
        if (isfinite(t))
            add_text(svg, "%.1f,%.1f ", x_of(p, k + 1), y_of(p, t));
    }
    add_text(svg, "\"/>\n<text x=\"%d\" y=\"%u\" text-anchor=\"end\" fill=\"%s\">run of channel %u</text>\n", p->left + WIDTH - 4, TOP + 14 + 16 * r, colours[r], r);
}

void plot_totals(const struct solved *s, struct bytes *svg)
{
    int width = 2 * (LEFT + WIDTH) + GAP / 2, height = TOP + HEIGHT + 48;
    add_text(svg, "<svg xmlns=\"http://www.w3.org/2000/svg\" width=\"%d\" height=\"%d\" viewBox=\"0 0 %d %d\" font-family=\"sans-serif\" font-size=\"12\">\n", width, height,
             width, height);
    add_text(svg, "<rect width=\"%d\" height=\"%d\" fill=\"#fff\"/>\n", width, height);
    for (int which = 0; which < 2; which++) {
        struct panel p = panel_of(s, which, which == 0 ? LEFT : 2 * LEFT + WIDTH + GAP / 4);
        frame(&p, svg);
        for (uint32_t r = 0; r < s->runs; r++)
            curve(&p, s, r, svg);
    }
    add_text(svg, "</svg>\n");
}
