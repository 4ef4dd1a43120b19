// The doors against plain implementations in C and what a programmer would write over LEMON, Boost
// Graph and igraph, where these are installed: each procedure against others that do the same task,
// on one table again and again and on 200 tables in turn, from the smallest to the largest; working
// tables; and tables made to be slow for rows at a junction. One process; the solvers take turns,
// and the median of all calls is told. What is found is compared, so that a solver that is wrong
// ends the run.
// usage: bench [PLOT]    prints the times; writes a plot (SVG) of time against the number of rows
//        bench --count   calls each solver twice and has callgrind write out the instructions of
//                        the second call (bench/counts.sh)
#include <cstring>

#include "plot.hpp"
#include "rows.hpp"

namespace {

enum { MANY = 200 };

struct Size {
    uint32_t n;
    size_t m;
};
const Size SIZES[] = {{7, 16}, {17, 64}, {64, 256}, {255, 256}, {64, 1024}, {255, 1024}};
const std::set<std::string> TREES = {"star_mst1", "star_cst"};

// What the document shows: a line for each table, with the time of each door and how it is to that
// of the fastest that does the same; two parts, since a line has no room for all doors.
struct Shown {
    std::vector<std::string> lines[2];

    void add(const std::string &title, const std::vector<Measured> &all) {
        for (int part = 0; part < 2; part++) {
            std::string line = "| " + title + " |", head = "| table |", rule = "|---|";
            for (size_t i = part ? 8 : 0; i < (part ? 16u : 8u); i++) {
                char cell[64];
                std::snprintf(cell, sizeof cell, " %.1f, %.2f |", all[i].door().us,
                              all[i].over_fastest());
                line += cell;
                head += std::string(" `") + all[i].door().solver.name + "` |";
                rule += "---|";
            }
            if (lines[part].empty()) lines[part] = {head, rule};
            lines[part].push_back(line);
        }
    }

    void print() const {
        for (auto &part : lines) {
            std::printf("\n");
            for (const std::string &line : part) std::printf("%s\n", line.c_str());
        }
    }
} shown;

std::string named(Size s, int32_t from, int32_t to) {
    std::string title = "n " + std::to_string(s.n) + ", m " + std::to_string(s.m);
    if (from == 0 && to == STAR_MAX_PRICE) return title;
    return title + ", prices from " + std::to_string(from) + " to " + std::to_string(to);
}

void run(const std::string &title, const std::vector<Task> &tasks, std::vector<Table> tables) {
    std::vector<Measured> all = measure(tasks, tables);
    print(title, all);
    if (tasks.size() >= all_tasks().size() && !counting) shown.add(title, all);
}

// One table, and 200 in turn.
void measure_size(Size s, int32_t from, int32_t to, const std::vector<Task> &tasks) {
    std::vector<Table> many;
    run(named(s, from, to), tasks, {make(s.n, s.m, from, to)});
    if (counting) return;
    for (int k = 0; k < MANY; k++) many.push_back(make(s.n, s.m, from, to));
    run(named(s, from, to) + ", 200 in turn", tasks, std::move(many));
}

// Working tables: half of the rows struck, the same packed, and few rows at the bottom.
void measure_working() {
    const std::vector<Task> trees = tasks_of(TREES);
    std::vector<Task> tasks = all_tasks();
    tasks.push_back(restoring());
    for (uint32_t n : {64u, 255u}) {
        Table t = half_struck(n);
        std::string title = "n " + std::to_string(n);
        run(title + ", half of 1024 rows struck", n == 255 ? tasks : trees, {t});
        run(title + ", the same 512 rows packed", trees, {packed(t)});
        std::vector<Table> many;
        for (int k = 0; k < MANY && !counting; k++) many.push_back(half_struck(n));
        if (!counting) run(title + ", half struck, 200 in turn", trees, std::move(many));
    }
    run("n 7, the last 16 of 1024 rows in use", all_tasks(), {at_the_bottom(7, 16)});
}

// Rows at a junction that has many, and where each exchange moves all that was moved before.
void measure_outlets() {
    const std::vector<Task> tasks = tasks_of({"star_mst1", "star_cst", "star_outlets"});
    run("n 255, m 1024, one of the 254 rows at junction 1 is left", tasks, {boiler_house(1)});
    run("n 255, m 1024, 128 of the 254 rows at junction 1 are left", tasks, {boiler_house(128)});
    run("n 212, m 1022, a chain of 208 with prices that fall", tasks, {slow_outlets(true)});
    run("n 209, m 1022, a star in a star with prices that fall", tasks, {slow_outlets(false)});
}

// The times of each solver of the least network as the rows become more.
std::vector<Line> grown(uint32_t n, const std::vector<size_t> &sizes) {
    std::vector<Line> lines;
    for (size_t m : sizes) {
        std::vector<Table> tables{make(n, m, 0, STAR_MAX_PRICE)};
        size_t k = 0;
        for (const Measured &measured : measure(tasks_of(TREES), tables))
            for (const Timed &s : measured.solvers) {
                if (k == lines.size()) lines.push_back({s.solver.name, {}, {}});
                lines[k].m.push_back(double(m));
                lines[k++].us.push_back(s.us);
            }
    }
    return lines;
}

} // namespace

int main(int count, char **words) {
    counting = count > 1 && std::strcmp(words[1], "--count") == 0;
    if (!counting)
        std::printf("Median of one call; beside it the time over that of star_mst1 and of "
                    "star_cst, and of a door over that of the fastest that does the same.\n"
                    "Where nothing else is said, prices have 31 bits.\n");
    tell_missing();
    for (Size s : SIZES) measure_size(s, 0, STAR_MAX_PRICE, all_tasks());
    for (auto prices :
         {std::pair<int32_t, int32_t>{0, 4999}, {-5000, 5000}, {STAR_MIN_PRICE, STAR_MAX_PRICE}})
        measure_size({255, 1024}, prices.first, prices.second, tasks_of(TREES));
    measure_working();
    measure_outlets();
    if (!counting) shown.print();
    if (count > 1 && !counting) {
        if (!plot(words[1], "Least network of 255 junctions",
                  grown(255, {256, 320, 384, 512, 640, 768, 896, 1024})))
            return 1;
        std::printf("time against the number of rows: %s\n", words[1]);
    }
    return 0;
}
