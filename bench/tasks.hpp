// The tasks: a door, what else does the same, and the number by which what they found is compared.
#pragma once

#include <string>

#include "libraries.hpp"

namespace {

struct Solver {
    const char *name;
    void (*solve)(Table &);
};

struct Task {
    Solver door;
    int64_t (*value)(const Table &); // of what is in `out`
    std::vector<Solver> rivals;
};

// A number of some bytes, for columns that are compared.
int64_t digest(const void *bytes, size_t count) {
    uint64_t sum = 14695981039346656037u;
    for (size_t i = 0; i < count; i++)
        sum = (sum ^ static_cast<const uint8_t *>(bytes)[i]) * 1099511628211u;
    return int64_t(sum);
}

int64_t price_of(const Table &t, const uint8_t *marks) {
    int64_t sum = 0;
    for (size_t i = 0; i < t.rows(); i++)
        if (t.used(i) && marks[i]) sum += t.price(i);
    return sum;
}

int64_t total(const Table &) { return out.total; }
int64_t totals(const Table &) { return out.before * 3 + out.after; }
int64_t choice(const Table &) { return out.total * 3 + out.first; }
int64_t matrix(const Table &t) {
    return digest(out.matrix, STAR_COLUMN_WORDS * t.n * sizeof *out.matrix);
}
int64_t text(const Table &) { return digest(out.text, size_t(out.total)); }
int64_t forests(const Table &t) { return out.total * 3 + price_of(t, out.forests); }
int64_t marks(const Table &t) { return price_of(t, out.marks); }
int64_t groups(const Table &t) { return digest(out.groups, t.n) ^ digest(out.rings, t.rows()); }
int64_t beside(const Table &t) { return digest(out.beside, t.rows() * sizeof *out.beside); }
int64_t best(const Table &) {
    return ((out.total * 3 + out.after) * 1024 + out.first) * 1024 + out.second;
}
int64_t restored(const Table &) { return digest(out.in_use, sizeof out.in_use); }

#ifdef HAVE_LEMON
#define LEMON(name, solve) \
    , { name, solve }
#else
#define LEMON(name, solve)
#endif

// The first two are MST1 and CST, to which the others are related.
std::vector<Task> all_tasks() {
    return {
        {{"star_mst1", door_mst1},
         total,
         {{"plain build", plain_build}
#ifdef HAVE_LEMON
          ,
          {"LEMON", lemon_tree}
#endif
#ifdef HAVE_BOOST
          ,
          {"Boost Graph", boost_tree}
#endif
#ifdef HAVE_IGRAPH
          ,
          {"igraph", igraph_tree}
#endif
         }},
        {{"star_cst", door_cst},
         total,
         {{"plain check", plain_check} LEMON("LEMON, a tree and its total", lemon_check)}},
        {{"star_quote", door_quote},
         totals,
         {{"plain quote", plain_quoted} LEMON("LEMON, two builds", lemon_quote)}},
        {{"star_breaking", door_breaking},
         total,
         {{"plain breaking price", plain_price} LEMON("LEMON, built without the row",
                                                      lemon_breaking)}},
        {{"star_which", door_which},
         choice,
         {{"plain which", plain_choice} LEMON("LEMON, two trees", lemon_which)}},
        {{"star_paths", door_paths},
         matrix,
         {{"plain paths", plain_ways} LEMON("LEMON, a search", lemon_paths)}},
        {{"star_digs", door_digs}, text, {{"plain digs", plain_list}}},
        {{"star_plan_digs", door_plan_digs}, text, {{"plain plan digs", plain_plan_list}}},
        {{"star_total", door_total}, total, {{"plain total", plain_sum}}},
        {{"star_districts", door_districts},
         forests,
         {{"plain districts", plain_runs} LEMON("LEMON, Kruskal of each", lemon_districts)}},
        {{"star_mend", door_mend},
         marks,
         {{"plain mend", plain_mended} LEMON("LEMON, search for each row", lemon_mend)}},
        {{"star_mend, no step", door_mend_none},
         marks,
         {{"plain mend, no step", plain_mended_none} LEMON("LEMON, no step", lemon_mend_none)}},
        {{"star_outlets", door_outlets},
         total,
         {{"plain outlets", plain_shifted} LEMON("LEMON, prices shifted", lemon_outlets)}},
        {{"star_groups", door_groups},
         groups,
         {{"plain groups and rings", plain_grouped} LEMON("LEMON, components and cuts",
                                                          lemon_groups)}},
        {{"star_detours", door_detours},
         beside,
         {{"plain detours", plain_beside}, {"walks by parents", walked_beside}}},
        {{"star_best", door_best},
         best,
         {{"plain best", plain_most_saved}, {"walks and a build", walked_best}}},
    };
}

// Those of the names, in the order of all tasks.
std::vector<Task> tasks_of(const std::set<std::string> &names) {
    std::vector<Task> found;
    for (const Task &t : all_tasks())
        if (names.count(t.door.name)) found.push_back(t);
    return found;
}

// A row of a working table, struck and restored.
Task restoring() {
    return {{"star_strike, star_restore", door_restore},
            restored,
            {{"plain strike, restore", plain_restored}}};
}

} // namespace
