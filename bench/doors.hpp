// What the procedures leave behind, and the doors that leave it there. A solver is a function of a
// table; what it found is read from `out` afterwards, when no time is taken.
#pragma once

#include <cstring>

#include "tables.hpp"

namespace {

struct Out {
    int64_t total, before, after;
    uint32_t first, second;
    uint8_t marks[STAR_MAX_ROWS], forests[STAR_MAX_ROWS], rings[STAR_MAX_ROWS];
    uint8_t groups[STAR_MAX_JUNCTIONS], text[STAR_MAX_LIST];
    uint32_t beside[STAR_MAX_ROWS];
    uint64_t matrix[STAR_COLUMN_WORDS * STAR_MAX_JUNCTIONS];
    star_record records[2 * STAR_MAX_ROWS];
    uint64_t in_use[STAR_COLUMN_WORDS];
} out;

uint8_t answer[STAR_QUOTE_BYTES];

#define COLUMNS(t) \
    t.left.data(), t.rows(), t.right.data(), t.rows(), t.weight.data(), t.weight.size()
#define ASK(t, door, ...) \
    (t.working ? star_work_##door(t.n, t.in_use, STAR_COLUMN_WORDS, COLUMNS(t), __VA_ARGS__) \
               : star_##door(t.n, COLUMNS(t), __VA_ARGS__))

// The amount of an answer, or what none has where it is refused.
int64_t amount() { return answer[0] ? star_read_answer(answer).amount : INT64_MIN; }

void door_mst1(Table &t) {
    ASK(t, mst1, out.marks, t.rows(), answer, 16);
    out.total = amount();
}

// The claim is a least network, so that every unmarked row is looked at.
void door_cst(Table &t) {
    ASK(t, cst, t.mark.data(), t.rows(), answer, 16);
    out.total = answer[0] == STAR_PASSED ? amount() : INT64_MIN;
}

void door_quote(Table &t) {
    ASK(t, quote, t.row, 0, answer, 24);
    star_quoted q = star_read_quoted(answer);
    out.before = q.before;
    out.after = q.after;
}

void door_breaking(Table &t) {
    ASK(t, breaking, t.row, answer, 16);
    out.total = answer[0] == STAR_NEVER ? INT64_MAX : amount();
}

void door_which(Table &t) {
    out.first = ASK(t, which, t.tree.data(), t.rows(), t.mark.data(), t.rows(), answer, 16);
    out.total = amount();
}

void door_paths(Table &t) {
    ASK(t, paths, t.tree.data(), t.rows(), 1, out.matrix, STAR_COLUMN_WORDS * size_t(t.n), answer,
        16);
}

void door_digs(Table &t) {
    ASK(t, digs, out.text, sizeof out.text, answer, 16);
    out.total = amount();
}

void door_plan_digs(Table &t) {
    ASK(t, plan_digs, t.tree.data(), t.rows(), out.text, sizeof out.text, answer, 16);
    out.total = amount();
}

void door_total(Table &t) {
    ASK(t, total, t.claim.data(), t.rows(), answer, 16);
    out.total = amount();
}

void door_districts(Table &t) {
    ASK(t, districts, t.ends, STAR_MAX_RUNS, out.forests, t.rows(), out.marks, t.rows(), answer,
        16);
    out.total = amount();
}

void mended(Table &t, const std::vector<uint8_t> &marks) {
    std::memcpy(out.marks, marks.data(), t.rows());
    ASK(t, mend, out.marks, t.rows(), out.records, 2 * STAR_MAX_ROWS, answer, 16);
}

void door_mend(Table &t) { mended(t, t.claim); }

// A claim that is a least network needs no step.
void door_mend_none(Table &t) { mended(t, t.mark); }

void door_outlets(Table &t) {
    ASK(t, outlets, out.marks, t.rows(), t.junction, t.count, answer, 16);
    out.total = amount();
}

void door_groups(Table &t) {
    ASK(t, groups, t.claim.data(), t.rows(), out.groups, t.n, out.rings, t.rows(), answer, 16);
}

void door_detours(Table &t) {
    ASK(t, detours, t.tree.data(), t.rows(), out.beside, t.rows(), answer, 16);
}

void door_best(Table &t) {
    ASK(t, best, t.tree.data(), t.rows(), answer, 24);
    star_answer a = star_read_answer(answer);
    out.first = a.out;
    out.second = a.in;
    out.total = a.kind == STAR_LIGHTER ? a.amount : 0;
    out.after = star_read_answer(answer + 8).amount;
}

// A row of a copy of the rows in use is struck, and restored.
void door_restore(Table &t) {
    std::memcpy(out.in_use, t.in_use, sizeof out.in_use);
    star_strike(out.in_use, STAR_COLUMN_WORDS, t.row, answer, 16);
    star_restore(out.in_use, STAR_COLUMN_WORDS, t.row, answer, 16);
}

} // namespace
