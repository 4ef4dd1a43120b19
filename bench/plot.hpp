// A plot (SVG) of time against the number of rows, a line a solver; both axes are logarithmic.
#pragma once

#include <algorithm>
#include <cmath>
#include <cstdio>
#include <string>
#include <vector>

namespace {

struct Line {
    std::string name;
    std::vector<double> m, us;
};

struct Axes {
    double m_from, m_to, us_from, us_to;
    static constexpr double WIDTH = 760, HEIGHT = 480, LEFT = 70, RIGHT = 140, TOP = 50,
                            BOTTOM = 60;
    double x(double m) const {
        return LEFT + (WIDTH - LEFT - RIGHT) * std::log(m / m_from) / std::log(m_to / m_from);
    }
    double y(double us) const {
        return HEIGHT - BOTTOM -
               (HEIGHT - TOP - BOTTOM) * std::log(us / us_from) / std::log(us_to / us_from);
    }
};

Axes axes_of(const std::vector<Line> &lines) {
    Axes a{1e9, 0, 1e9, 0};
    for (const Line &l : lines)
        for (size_t i = 0; i < l.m.size(); i++) {
            a.m_from = std::min(a.m_from, l.m[i]);
            a.m_to = std::max(a.m_to, l.m[i]);
            a.us_from = std::min(a.us_from, l.us[i]);
            a.us_to = std::max(a.us_to, l.us[i]);
        }
    a.us_from = std::pow(10, std::floor(std::log10(a.us_from)));
    a.us_to = std::pow(10, std::ceil(std::log10(a.us_to)));
    return a;
}

void plot_grid(FILE *to, const Axes &a, const std::vector<double> &at) {
    for (double us = a.us_from; us <= a.us_to * 1.01; us *= 10)
        for (int k = 1; k <= (us * 1.01 < a.us_to ? 5 : 1); k = k == 1 ? 2 : k + 3) {
            double y = a.y(us * k);
            std::fprintf(to,
                         "<path class=\"grid\" d=\"M%.1f %.1fH%.1f\"/><text class=\"up\" "
                         "x=\"%.1f\" y=\"%.1f\">%g</text>\n",
                         Axes::LEFT, y, Axes::WIDTH - Axes::RIGHT, Axes::LEFT - 8, y + 4, us * k);
        }
    for (double m : at)
        std::fprintf(to,
                     "<path class=\"grid\" d=\"M%.1f %.1fV%.1f\"/><text class=\"along\" x=\"%.1f\" "
                     "y=\"%.1f\">%g</text>\n",
                     a.x(m), Axes::TOP, Axes::HEIGHT - Axes::BOTTOM, a.x(m),
                     Axes::HEIGHT - Axes::BOTTOM + 20, m);
}

// The names stand beside the lines' ends, each at least a line below the one above.
void plot_names(FILE *to, const Axes &a, const std::vector<Line> &lines,
                const char *const *colours) {
    std::vector<size_t> order(lines.size());
    double last = 0;
    for (size_t i = 0; i < order.size(); i++) order[i] = i;
    std::sort(order.begin(), order.end(),
              [&](size_t p, size_t q) { return lines[p].us.back() > lines[q].us.back(); });
    for (size_t i : order) {
        last = std::max(a.y(lines[i].us.back()) + 4, last + 15);
        std::fprintf(to, "<text x=\"%.1f\" y=\"%.1f\" fill=\"%s\">%s</text>\n",
                     Axes::WIDTH - Axes::RIGHT + 10, last, colours[i], lines[i].name.c_str());
    }
}

// Whether the plot was written.
bool plot(const char *file, const std::string &title, const std::vector<Line> &lines) {
    static const char *const COLOURS[] = {"#0072b2", "#d55e00", "#009e73", "#cc79a7",
                                          "#8a6d00", "#555555", "#56b4e9", "#000000"};
    FILE *to = std::fopen(file, "wb");
    if (!to || lines.empty() || lines.size() > sizeof COLOURS / sizeof COLOURS[0]) return false;
    Axes a = axes_of(lines);
    std::fprintf(to,
                 "<svg xmlns=\"http://www.w3.org/2000/svg\" width=\"%.0f\" height=\"%.0f\" "
                 "viewBox=\"0 0 %.0f %.0f\" font-family=\"sans-serif\" font-size=\"13\">\n"
                 "<title>%s</"
                 "title>\n<style>.grid{stroke:#ddd;fill:none}.up{text-anchor:end}.along,.head{text-"
                 "anchor:middle}.head{font-size:15px}</style>\n"
                 "<rect width=\"100%%\" height=\"100%%\" fill=\"#fff\"/>\n<text class=\"head\" "
                 "x=\"%.0f\" y=\"26\">%s</text>\n",
                 Axes::WIDTH, Axes::HEIGHT, Axes::WIDTH, Axes::HEIGHT, title.c_str(),
                 (Axes::LEFT + Axes::WIDTH - Axes::RIGHT) / 2, title.c_str());
    plot_grid(to, a, lines[0].m);
    for (size_t i = 0; i < lines.size(); i++) {
        std::fprintf(to, "<polyline fill=\"none\" stroke-width=\"2\" stroke=\"%s\" points=\"",
                     COLOURS[i]);
        for (size_t k = 0; k < lines[i].m.size(); k++)
            std::fprintf(to, "%.1f,%.1f ", a.x(lines[i].m[k]), a.y(lines[i].us[k]));
        std::fprintf(to, "\"/>\n");
    }
    plot_names(to, a, lines, COLOURS);
    std::fprintf(
        to,
        "<text class=\"along\" x=\"%.0f\" y=\"%.0f\">rows (m)</text><text class=\"along\" "
        "transform=\"translate(18 %.0f) rotate(-90)\">microseconds for a call</text>\n</svg>\n",
        (Axes::LEFT + Axes::WIDTH - Axes::RIGHT) / 2, Axes::HEIGHT - 15, Axes::HEIGHT / 2);
    return std::fclose(to) == 0;
}

} // namespace
