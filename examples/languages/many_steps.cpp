// Twelve steps of a small simulation: in each the inlet's particles are joined with the resident ones, and the step is planned beside the
// plan of the step before and carried out.
#include <array>
#include <cstdint>
#include <iostream>
#include <numeric>
#include <stdexcept>
#include <string>
#include <utility>
#include <vector>

#include "firrozka.h"

// The tolerance is in tenths of a percent.
constexpr std::uint32_t nodes = 5, tolerance = 100, steps = 12;

using Bytes = std::vector<std::uint8_t>;
using Words = std::vector<std::uint32_t>;

// How many particles of each subdomain each node holds: held[node][subdomain].
using Counts = std::array<std::array<std::uint32_t, nodes>, nodes>;

// "A word is 4 bytes, unsigned, low byte first."
Bytes to_bytes(const Words &words) {
    Bytes bytes;
    for (auto word : words)
        for (auto byte : {word, word >> 8, word >> 16, word >> 24}) bytes.push_back(byte & 255);
    return bytes;
}

Words to_words(const Bytes &bytes) {
    Words words;
    for (auto b = bytes.begin(); b != bytes.end(); b += 4)
        words.push_back(b[0] | b[1] << 8 | b[2] << 16 | std::uint32_t{b[3]} << 24);
    return words;
}

// A quarter of each count crosses into the next subdomain.
void flow(Counts &held) {
    for (auto &counts : held) {
        const auto before = counts;
        for (std::uint32_t n = 0; n < nodes; ++n) {
            counts[n] -= before[n] / 4;
            counts[(n + 1) % nodes] += before[n] / 4;
        }
    }
}

// What the inlet brings, as a sheet: 300 particles of subdomain 0 to node 0 in steps 3 to 5, and else none.
Bytes inlet(std::uint32_t step) {
    if (3 <= step && step <= 5) return to_bytes({nodes, tolerance, 1, 0, 300});
    return to_bytes({nodes, tolerance, 0});
}

// The counts as a sheet.
Bytes sheet_of(const Counts &held) {
    Words cells, counts;
    for (std::uint32_t k = 0; k < nodes; ++k)
        for (std::uint32_t n = 0; n < nodes; ++n)
            if (held[k][n] > 0) {
                cells.push_back(64 * k + n);
                counts.push_back(held[k][n]);
            }
    Words sheet{nodes, tolerance, static_cast<std::uint32_t>(cells.size())};
    sheet.insert(sheet.end(), cells.begin(), cells.end());
    sheet.insert(sheet.end(), counts.begin(), counts.end());
    return to_bytes(sheet);
}

// The counts that a sheet gives. A cell that is absent counts as 0.
Counts counts_in(const Bytes &record) {
    Counts held{};
    const auto sheet = to_words(record);
    const auto e = sheet[2];
    for (std::uint32_t i = 0; i < e; ++i) held[sheet[3 + i] / 64][sheet[3 + i] % 64] = sheet[3 + e + i];
    return held;
}

void accept(std::uint32_t refusal) {
    if (refusal != FIRROZKA_ACCEPTED) throw std::runtime_error("refused " + std::to_string(refusal));
}

// Plans a step. The plan is written to a buffer, which is then as long as the plan.
firrozka_step plan_step(const Bytes &sheet, const Bytes &old_plan, Bytes &plan, Bytes &moves) {
    plan.resize(FIRROZKA_PLAN_BYTES);
    moves.resize(FIRROZKA_MOVES_BYTES);
    const auto step = firrozka_plan_step(sheet.data(), sheet.size(), old_plan.data(), old_plan.size(), plan.data(),
                                         plan.size(), moves.data(), moves.size());
    accept(step.refusal);
    plan.resize(step.plan_bytes);
    moves.resize(step.moves_bytes);
    return step;
}

// The sheet that a function makes of two records: join sheets, or carry out.
Bytes sheet_by(decltype(firrozka_carry_out) function, const Bytes &first, const Bytes &second) {
    Bytes sheet(FIRROZKA_SHEET_BYTES);
    const auto written = function(first.data(), first.size(), second.data(), second.size(), sheet.data(), sheet.size());
    accept(written.refusal);
    sheet.resize(written.bytes);
    return sheet;
}

int main() {
    Counts held{};
    for (std::uint32_t k = 0; k < nodes; ++k) held[k][k] = 1000;
    Bytes old_plan, plan, moves; // an empty old plan is none
    for (std::uint32_t number = 1; number <= steps; ++number) {
        flow(held);
        const auto sheet = sheet_by(firrozka_join_sheets, sheet_of(held), inlet(number));
        const auto step = plan_step(sheet, old_plan, plan, moves);
        const auto list = to_words(moves);
        const auto e = list[1];
        std::cout << "step " << number << " kind " << step.kind << " limit " << step.limit << " moves " << e
                  << " particles " << std::accumulate(list.begin() + 2 + e, list.end(), 0u) << '\n';
        // Here a simulation sends the particles; the sheet that follows has the counts thereafter.
        held = counts_in(sheet_by(firrozka_carry_out, sheet, moves));
        // Two buffers in turn: the plan of this step is the old plan of the next.
        std::swap(old_plan, plan);
    }
    std::cout << "loads";
    for (const auto &counts : held) std::cout << ' ' << std::accumulate(counts.begin(), counts.end(), 0u);
    std::cout << '\n';
}
