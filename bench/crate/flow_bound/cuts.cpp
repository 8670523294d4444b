// The same cuts in C++, on the same zones: cells, tally, peel and network as flow_bound has them.
#include "../flow_net/net.h"
#include <array>
#include <chrono>
#include <cstdio>
#include <cstdlib>
#include <optional>

struct Fixture { uint8_t home, away; };

// The scores that are left: outcomes, and ranges of goals.
struct Cell {
    bool home_win = true, draw = true, away_win = true;
    uint8_t home_least = 0, home_most = 9, away_least = 0, away_most = 9;

    bool has_goals() const { return home_least <= home_most && away_least <= away_most; }
    bool has_home_win() const { return home_win && has_goals() && away_least < home_most; }
    bool has_draw() const {
        return draw && std::max(home_least, away_least) <= std::min(home_most, away_most);
    }
    bool has_away_win() const { return away_win && has_goals() && home_least < away_most; }
};

struct Box {
    const std::vector<Fixture>& fixtures;
    const std::vector<uint8_t>& deductions;
    std::vector<Cell> cells;
    uint32_t before = 0, after = 0;
};

struct Points { uint8_t least, most; };

static Points points_of(const Cell& cell, bool home, bool away) {
    const uint8_t none = 0, all = 3;
    uint8_t win = home ? all : none, drawn = home + away, loss = away ? all : none;
    bool wins = cell.has_home_win(), draws = cell.has_draw(), losses = cell.has_away_win();
    uint8_t least = std::min({wins ? win : all, draws ? drawn : all, losses ? loss : all});
    uint8_t most = std::max({wins ? win : none, draws ? drawn : none, losses ? loss : none});
    return {least, most};
}

static bool has(uint32_t set, uint8_t club) { return set >> club & 1; }

struct Range { int32_t least, most; };

static Range points(const Box& box, uint32_t set) {
    int32_t least = 0, most = 0, off = 0;
    for (size_t i = 0; i < box.fixtures.size(); i++) {
        bool home = has(set, box.fixtures[i].home), away = has(set, box.fixtures[i].away);
        Points points = points_of(box.cells[i], home, away);
        least += points.least;
        most += points.most;
    }
    for (size_t club = 0; club < box.deductions.size(); club++)
        if (has(set, club)) off += box.deductions[club];
    return {least - off, most - off};
}

struct Worth { int64_t home, away; uint8_t surplus; };

static Worth worth_of(const Cell& cell, bool floor) {
    bool wins = cell.has_home_win(), draws = cell.has_draw(), losses = cell.has_away_win();
    if (floor) {
        uint8_t home = losses ? 0 : draws ? 1 : 3, away = wins ? 0 : draws ? 1 : 3;
        uint8_t both = draws ? 2 : 3;
        return {home, away, uint8_t(both - home - away)};
    }
    uint8_t home = wins ? 3 : draws ? 1 : 0, away = losses ? 3 : draws ? 1 : 0;
    uint8_t both = wins || losses ? 3 : 2;
    return {-int64_t(home), -int64_t(away), uint8_t(home + away - both)};
}

struct Pair { uint8_t home, away, surplus; };

struct Tally {
    std::array<int64_t, 32> alone;
    std::array<Pair, 600> pairs;
    size_t count = 0;

    Tally(const Box& box, uint32_t marked, bool floor, int64_t level) {
        alone.fill(level);
        for (size_t club = 0; club < box.deductions.size(); club++)
            alone[club] -= floor ? box.deductions[club] : -int64_t(box.deductions[club]);
        for (size_t i = 0; i < box.fixtures.size(); i++) {
            Fixture fixture = box.fixtures[i];
            bool home = has(marked, fixture.home), away = has(marked, fixture.away);
            if (!home && !away) continue;
            Worth worth = worth_of(box.cells[i], floor);
            alone[fixture.home] += worth.home;
            alone[fixture.away] += worth.away;
            if (worth.surplus && home && away)
                pairs[count++] = {fixture.home, fixture.away, worth.surplus};
        }
    }

    uint32_t peel(uint32_t marked) const {
        for (uint32_t rest = marked;;) {
            std::array<int64_t, 32> reach = alone;
            for (size_t i = 0; i < count; i++)
                if (has(rest, pairs[i].home) && has(rest, pairs[i].away)) {
                    reach[pairs[i].home] += pairs[i].surplus;
                    reach[pairs[i].away] += pairs[i].surplus;
                }
            uint32_t next = 0;
            for (int club = 0; club < 32; club++)
                if (has(rest, club) && reach[club] > 0) next |= 1u << club;
            if (next == rest) return rest;
            rest = next;
        }
    }

    std::optional<uint32_t> greatest(uint32_t rest) const {
        std::array<uint16_t, 32> places{};
        uint16_t clubs = 0;
        for (int club = 0; club < 32; club++) {
            places[club] = clubs;
            clubs += has(rest, club);
        }
        std::array<int64_t, 32> weights = alone;
        for (size_t i = 0; i < count; i++)
            if (has(rest, pairs[i].home) && has(rest, pairs[i].away))
                weights[pairs[i].home] += pairs[i].surplus;
        uint16_t source = clubs, sink = clubs + 1;
        Net net(clubs + 2, 32 + count);
        uint64_t goal = 0;
        for (int club = 0; club < 32; club++) {
            if (!has(rest, club)) continue;
            if (weights[club] > 0) {
                net.add_arc(source, places[club], weights[club]);
                goal += weights[club];
            } else if (weights[club] < 0) {
                net.add_arc(places[club], sink, -weights[club]);
            }
        }
        for (size_t i = 0; i < count; i++)
            if (has(rest, pairs[i].home) && has(rest, pairs[i].away))
                net.add_arc(places[pairs[i].home], places[pairs[i].away], pairs[i].surplus);
        std::vector<uint8_t> side;
        if (net.max_flow(source, sink, side) >= goal) return std::nullopt;
        uint32_t found = 0;
        for (int club = 0; club < 32; club++)
            if (has(rest, club) && side[places[club]]) found |= 1u << club;
        return found;
    }

    std::optional<uint32_t> choose(uint32_t marked) const {
        for (int club = 0; club < 32; club++)
            if (has(marked, club) && alone[club] > 0) return 1u << club;
        uint32_t rest = peel(marked);
        if (!rest) return std::nullopt;
        return greatest(rest);
    }
};

struct Question { uint8_t club; int32_t low, high; };

static std::optional<uint32_t> low_cut(const Box& box, const Question& question) {
    if (!box.after) return std::nullopt;
    int32_t most = std::min(question.high, points(box, 1u << question.club).most);
    return Tally(box, box.after, true, -int64_t(most)).choose(box.after);
}

static std::optional<uint32_t> high_cut(const Box& box, const Question& question) {
    if (!box.before) return std::nullopt;
    int32_t least = std::max(question.low, points(box, 1u << question.club).least);
    return Tally(box, box.before, false, least).choose(box.before);
}

static uint32_t next(uint64_t& state, uint32_t bound) {
    state = state * 6364136223846793005ull + 1442695040888963407ull;
    return (uint32_t)(state >> 33) % bound;
}

static unsigned round_of(Fixture f) {
    return (f.home == 19 ? 2 * f.away : f.away == 19 ? 2 * f.home : f.home + f.away) % 19;
}

static bool is_second(Fixture f) { return (f.home > f.away) == ((f.home + f.away) % 2 == 0); }

static uint64_t elapsed(std::chrono::steady_clock::time_point start) {
    auto taken = std::chrono::steady_clock::now() - start;
    return std::chrono::duration_cast<std::chrono::nanoseconds>(taken).count();
}

static uint64_t time_open(unsigned open, uint64_t rounds) {
    std::vector<Fixture> fixtures;
    for (uint8_t home = 0; home < 20; home++)
        for (uint8_t away = 0; away < 20; away++)
            if (home != away) fixtures.push_back({home, away});
    std::vector<uint8_t> deductions(20);
    Box free{fixtures, deductions, {}};
    std::vector<bool> played;
    uint64_t state = 1;
    for (Fixture f : fixtures) {
        uint8_t home = next(state, 6), away = next(state, 6);
        played.push_back(!is_second(f) || round_of(f) >= open);
        Cell cell;
        if (played.back()) {
            cell.home_least = cell.home_most = home;
            cell.away_least = cell.away_most = away;
        }
        free.cells.push_back(cell);
    }

    uint64_t sum = 0, low = 0, high = 0, calls = 0;
    state = 1;
    for (uint8_t club = 0; club < 20; club++)
        for (bool won : {false, true}) {
            Box box = free;
            for (size_t i = 0; i < fixtures.size(); i++) {
                if (played[i] || (fixtures[i].home != club && fixtures[i].away != club)) continue;
                bool home_wins = (fixtures[i].home == club) == won;
                box.cells[i].draw = false;
                (home_wins ? box.cells[i].away_win : box.cells[i].home_win) = false;
            }
            int32_t own = points(free, 1u << club).least;
            for (uint8_t rival = 0; rival < 20; rival++)
                if (next(state, 4) > 0 && rival != club)
                    (points(free, 1u << rival).least > own ? box.before : box.after) |= 1u << rival;

            Question question{club, -99, 1800};
            auto start = std::chrono::steady_clock::now();
            uint64_t lows = 0;
            for (uint64_t r = 0; r < rounds; r++) lows += low_cut(box, question).value_or(0);
            low += elapsed(start);
            start = std::chrono::steady_clock::now();
            uint64_t highs = 0;
            for (uint64_t r = 0; r < rounds; r++) highs += high_cut(box, question).value_or(0);
            high += elapsed(start);
            sum = (sum * 31 + lows) * 31 + highs;
            calls += rounds;
        }
    fprintf(stderr, "%u rounds: low_cut %llu ns, high_cut %llu ns, ", open,
            (unsigned long long)(low / calls), (unsigned long long)(high / calls));
    return sum;
}

int main(int argc, char** argv) {
    uint64_t rounds = argc > 1 ? strtoull(argv[1], nullptr, 10) : 1;
    uint64_t few = time_open(3, rounds), more = time_open(5, rounds), many = time_open(10, rounds);
    printf("%llu\n", (unsigned long long)((few * 31 + more) * 31 + many));
}
