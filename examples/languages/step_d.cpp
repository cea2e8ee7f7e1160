// Plans step D and prints it as the bench program does, and then its traffic page; writes its sheet to an archive and reads it back; prints
// its plan's groups; tallies arrivals until the tree gives way.
#include <array>
#include <cstdint>
#include <initializer_list>
#include <iostream>
#include <memory>
#include <string>
#include <vector>

#include "firrozka.h"

using Bytes = std::vector<std::uint8_t>;

// "A word is 4 bytes, unsigned, low byte first."
Bytes to_bytes(std::initializer_list<std::uint32_t> words) {
    Bytes bytes;
    for (auto word : words)
        for (int shift = 0; shift < 32; shift += 8) bytes.push_back(static_cast<std::uint8_t>(word >> shift));
    return bytes;
}

std::vector<std::uint32_t> to_words(const Bytes &bytes) {
    std::vector<std::uint32_t> words(bytes.size() / 4);
    for (std::size_t i = 0; i < 4 * words.size(); ++i) words[i / 4] |= std::uint32_t{bytes[i]} << (8 * (i % 4));
    return words;
}

// What plan a step answers and writes.
struct Step {
    firrozka_step answer;
    Bytes plan, moves;
};

Step plan_step(const Bytes &sheet, const Bytes &old_plan) {
    Step step{{}, Bytes(FIRROZKA_PLAN_BYTES), Bytes(FIRROZKA_MOVES_BYTES)};
    step.answer = firrozka_plan_step(sheet.data(), sheet.size(), old_plan.data(), old_plan.size(), step.plan.data(),
                                     step.plan.size(), step.moves.data(), step.moves.size());
    step.plan.resize(step.answer.plan_bytes);
    step.moves.resize(step.answer.moves_bytes);
    return step;
}

// What traffic page answers and writes.
struct Page {
    firrozka_written answer;
    std::string text;
};

Page traffic_page(const Bytes &sheet, const Bytes &moves) {
    Bytes page(FIRROZKA_PAGE_BYTES);
    const auto answer =
        firrozka_traffic_page(sheet.data(), sheet.size(), moves.data(), moves.size(), page.data(), page.size());
    return {answer, std::string(page.begin(), page.begin() + answer.bytes)};
}

// What write archive, read archive or groups answers and writes.
struct Converted {
    firrozka_written answer;
    Bytes bytes;
};

using Convert = firrozka_written (*)(const std::uint8_t *, std::size_t, std::uint8_t *, std::size_t);

Converted converted(Convert convert, const Bytes &record, std::size_t longest) {
    Bytes bytes(longest);
    const auto answer = convert(record.data(), record.size(), bytes.data(), bytes.size());
    bytes.resize(answer.bytes);
    return {answer, bytes};
}

// Each node's amount of its own subdomain: Pn less the shares of its helpers. A root's share is 0.
std::array<std::uint32_t, 64> own_amounts(const std::vector<std::uint32_t> &sheet, const std::vector<std::uint32_t> &plan) {
    std::array<std::uint32_t, 64> own{};
    const auto e = sheet[2], n = plan[0];
    for (std::uint32_t i = 0; i < e; ++i) own[sheet[3 + i] % 64] += sheet[3 + e + i];
    for (std::uint32_t k = 0; k < n; ++k) own[plan[3 + k]] -= plan[3 + n + k];
    return own;
}

int refused(std::uint32_t refusal) {
    std::cout << "refused " << refusal << '\n';
    return 1;
}

// The N entries of a colour, which begin at a place.
void print_entries(const char *colour, const std::vector<std::uint32_t> &groups, std::size_t first) {
    std::cout << ' ' << colour;
    for (std::uint32_t k = 0; k < groups[0]; ++k) std::cout << ' ' << groups[first + k];
}

int main() {
    // 3 nodes, a tolerance of 100 tenths of a percent, 3 cells.
    const Bytes sheet = to_bytes({3, 100, 3, 0, 65, 130, 90, 6, 4});
    const Step step = plan_step(sheet, {});
    if (step.answer.refusal != FIRROZKA_ACCEPTED) return refused(step.answer.refusal);
    const auto plan = to_words(step.plan), moves = to_words(step.moves);
    const auto own = own_amounts(to_words(sheet), plan);
    const auto n = plan[0], e = moves[1];

    std::cout << "kind " << step.answer.kind << " limit " << step.answer.limit << '\n';
    for (std::uint32_t k = 0; k < n; ++k)
        std::cout << "node " << k << " helps " << plan[3 + k] << " share " << plan[3 + n + k] << " own " << own[k] << '\n';
    for (std::uint32_t i = 0; i < e; ++i) {
        const auto route = moves[2 + i];
        std::cout << "move " << route / 4096 << " from " << route / 64 % 64 << " to " << route % 64 << " count "
                  << moves[2 + e + i] << '\n';
    }
    const Page page = traffic_page(sheet, step.moves);
    if (page.answer.refusal != FIRROZKA_ACCEPTED) return refused(page.answer.refusal);
    std::cout << page.text;

    const Converted archive = converted(firrozka_write_archive, sheet, FIRROZKA_ARCHIVE_BYTES);
    if (archive.answer.refusal != FIRROZKA_ACCEPTED) return refused(archive.answer.refusal);
    const Converted restored = converted(firrozka_read_archive, archive.bytes, FIRROZKA_SHEET_BYTES);
    if (restored.answer.refusal != FIRROZKA_ACCEPTED) return refused(restored.answer.refusal);
    std::cout << "archive " << archive.bytes.size() << " bytes, read back "
              << (restored.bytes == sheet ? "the same" : "another") << '\n';

    const Converted written = converted(firrozka_groups, step.plan, FIRROZKA_GROUPS_BYTES);
    if (written.answer.refusal != FIRROZKA_ACCEPTED) return refused(written.answer.refusal);
    const auto groups = to_words(written.bytes);
    std::cout << "groups";
    print_entries("even", groups, 1);
    print_entries("odd", groups, 1 + groups[0]);
    std::cout << '\n';

    // Particles of subdomain 0 arrive at node 0 one by one. In a refusal holds is 0, too.
    const auto tally = std::make_unique<firrozka_tally>();
    auto tallied = firrozka_open_tally(sheet.data(), sheet.size(), step.plan.data(), step.plan.size(), tally.get());
    std::uint32_t count = 0;
    for (; tallied.holds; ++count) tallied = firrozka_tally_add(tally.get(), 0, 0, 1);
    if (tallied.refusal != FIRROZKA_ACCEPTED) return refused(tallied.refusal);
    std::cout << "tally: the tree gives way at " << count << " more of subdomain 0\n";
}
