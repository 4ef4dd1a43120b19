// The time of a call, or its instructions under callgrind, and what is printed of the tasks of one
// table, or of many in turn.
#pragma once

#include <chrono>
#include <cstdio>
#include <cstdlib>
#include <ctime>
#include <string>

#if __has_include(<valgrind/callgrind.h>)
#include <valgrind/callgrind.h>
#else // nothing is counted
#define CALLGRIND_ZERO_STATS
#define CALLGRIND_DUMP_STATS_AT(name) (void)(name)
#endif

#include "tasks.hpp"

namespace {

// What is measured: the time of each call or, under callgrind, its instructions (bench/counts.sh).
bool counting = false;

using Clock = std::chrono::steady_clock;

// The microseconds of processor time of this thread.
double spent() {
    timespec t;
    clock_gettime(CLOCK_THREAD_CPUTIME_ID, &t);
    return double(t.tv_sec) * 1e6 + double(t.tv_nsec) * 1e-3;
}

// A solver over tables that come one after the other, and the times of its calls in microseconds: of
// those that take more than 100 the processor time, since the machine may do something else in
// between; of the others, for which that clock is too slow, the time that passes. What it finds is
// compared with what the door found, after the time is taken.
struct Timed {
    Solver solver;
    int64_t (*value)(const Table &);
    std::vector<double> times{};
    size_t next = 0;
    bool slow = false;
    double us = 0; // the median

    void call(std::vector<Table> &tables, const std::vector<int64_t> &expected) {
        Table &t = tables[next];
        double began = slow ? spent() : 0;
        auto from = Clock::now();
        solver.solve(t);
        double passed = std::chrono::duration<double, std::micro>(Clock::now() - from).count();
        times.push_back(slow ? spent() - began : passed);
        compare(t, expected[next]);
        next = (next + 1) % tables.size();
    }

    void compare(const Table &t, int64_t expected) const {
        int64_t got = value(t);
        if (got == expected) return;
        std::printf("%s gives %lld, expected %lld\n", solver.name, (long long)got,
                    (long long)expected);
        std::exit(1);
    }

    // Calls for some milliseconds. After the first ones it is known whether they take long.
    void round(std::vector<Table> &tables, const std::vector<int64_t> &expected) {
        if (!slow && !times.empty()) {
            settle();
            slow = us > 100;
            if (slow) times.clear();
        }
        auto end = Clock::now() + std::chrono::milliseconds(4);
        do call(tables, expected);
        while (Clock::now() < end);
    }

    // One call, after another, of which callgrind writes out what it counted, under its name.
    void count(Table &t, int64_t expected) const {
        solver.solve(t);
        CALLGRIND_ZERO_STATS;
        solver.solve(t);
        CALLGRIND_DUMP_STATS_AT(solver.name);
        compare(t, expected);
    }

    void settle() {
        std::nth_element(times.begin(), times.begin() + long(times.size() / 2), times.end());
        us = times[times.size() / 2];
    }
};

// A task with its times; the door is the first.
struct Measured {
    std::vector<Timed> solvers;
    std::vector<int64_t> expected;
    const Timed &door() const { return solvers[0]; }
    const Timed *fastest() const { // of those that do the same
        const Timed *found = nullptr;
        for (size_t i = 1; i < solvers.size(); i++)
            if (!found || solvers[i].us < found->us) found = &solvers[i];
        return found;
    }
    double over_fastest() const { return fastest() ? door().us / fastest()->us : 0; }
};

Measured of_task(const Task &task, std::vector<Table> &tables) {
    Measured m;
    m.solvers.push_back({task.door, task.value});
    for (const Solver &rival : task.rivals) m.solvers.push_back({rival, task.value});
    for (Table &t : tables) {
        task.door.solve(t);
        m.expected.push_back(task.value(t));
    }
    return m;
}

// The tasks of some tables. The solvers take turns, round by round, so that what else the machine
// does falls on all of them. A least network is marked first, for the tasks that take one.
std::vector<Measured> measure(const std::vector<Task> &tasks, std::vector<Table> &tables) {
    std::vector<Measured> all;
    for (Table &t : tables) {
        door_mst1(t);
        t.mark.assign(out.marks, out.marks + t.rows());
    }
    for (const Task &task : tasks) all.push_back(of_task(task, tables));
    if (counting) {
        for (Measured &m : all)
            for (Timed &s : m.solvers) s.count(tables[0], m.expected[0]);
        return all;
    }
    for (int k = 0; k < 12; k++)
        for (Measured &m : all)
            for (Timed &s : m.solvers) s.round(tables, m.expected);
    for (Measured &m : all)
        for (Timed &s : m.solvers) s.settle();
    return all;
}

// The first two tasks are MST1 and CST.
void print(const std::string &title, const std::vector<Measured> &all) {
    std::printf("%s\n", title.c_str());
    if (counting) return;
    double mst1 = all[0].door().us, cst = all[1].door().us;
    for (const Measured &m : all)
        for (const Timed &s : m.solvers) {
            bool door = &s == &m.door();
            std::printf("%s%-*s %9.1f us %7.2f of MST1 %7.2f of CST", door ? "  " : "      ",
                        door ? 31 : 27, s.solver.name, s.us, s.us / mst1, s.us / cst);
            if (door && m.fastest())
                std::printf(" %6.2f of %s", m.over_fastest(), m.fastest()->solver.name);
            std::printf("\n");
        }
}

} // namespace
