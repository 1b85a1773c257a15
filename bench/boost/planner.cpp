// A planner over Boost.Graph's r_c_shortest_paths (label setting under resource constraints): clock, spell, shift, week
// and mark are its resources, roads and pauses its edges. It trusts its files: bench/src/bin/boost.rs writes accepted ones.
//
//   planner first|all RUNS SECONDS BAN_DAYS FOLDER...
//
// The file of ban days has their numbers, and each folder the files `map`, `order` and `bans`. For each folder it prints a
// line: `planned ARRIVAL SPELL SHIFT WEEK LABELS NANOSECONDS`, `none LABELS NANOSECONDS` or `late`. `all` is the search as
// it is: it ends when no label is left. `first` stops it at the first label at target. The time is the best of RUNS, or of
// those that end within SECONDS.

#include <boost/graph/adjacency_list.hpp>
#include <boost/graph/r_c_shortest_paths.hpp>

#include <algorithm>
#include <chrono>
#include <cstdint>
#include <exception>
#include <fstream>
#include <iostream>
#include <iterator>
#include <optional>
#include <stdexcept>
#include <string>
#include <tuple>
#include <vector>

namespace {

using Word = std::uint32_t;
using Bytes = std::vector<unsigned char>;
using Time = std::chrono::steady_clock;

enum Kind { DRIVE, BREAK, REST, FIRST, SECOND, WEEKLY };

struct Move {
    std::size_t index;
    Kind kind;
    Word seconds;
    bool is_banned;
};

// When banned roads open. Days are those of the latest clock and before.
class Gates {
    static constexpr Word DAY = 86400, OPENING = 22 * 3600, DAYS = 2000000000 / DAY + 1;
    std::vector<bool> is_ban_day = std::vector<bool>(DAYS);

public:
    explicit Gates(const std::vector<Word>& ban_days) {
        for (const Word day : ban_days) {
            is_ban_day.at(day) = true;
        }
    }

    // When a lorry that comes to a banned road at this clock may enter it.
    Word entry(Word clock) const {
        const Word day = clock / DAY;
        return clock % DAY < OPENING && is_ban_day[day] ? DAY * day + OPENING : clock;
    }
};

using Graph = boost::adjacency_list<boost::vecS, boost::vecS, boost::directedS, boost::no_property, Move>;
using Edge = boost::graph_traits<Graph>::edge_descriptor;

// Words 0 to 14, in their order.
struct Order {
    Word source, target, departure, latest, spell, shift;
    Word spell_limit, break_time, shift_limit, rest_time, first_part, second_part;
    Word week_limit, weekly_rest, week;
};

// The fields stand in the order of rank.
struct State {
    Word clock, spell, shift, week;
    Word unmarked; // 0 with the mark, which is the better one
    Word junction;

    auto fields() const { return std::tie(clock, spell, shift, week, unmarked, junction); }
};

// The search takes labels in this order, and rank is the document's.
bool operator<(const State& one, const State& other) { return one.fields() < other.fields(); }

// The state after a move. Answers whether the rules offer it and it is legal.
struct Extension {
    Order order;
    const Gates* gates;

    bool operator()(const Graph& graph, State& after, const State& before, Edge edge) const {
        const Move& move = graph[edge];
        after = before;
        after.junction = static_cast<Word>(target(edge, graph));
        after.clock = (move.is_banned ? gates->entry(before.clock) : before.clock) + move.seconds;
        if (move.kind == DRIVE) {
            after.spell += move.seconds;
            after.shift += move.seconds;
            after.week += move.seconds;
        } else {
            after.unmarked = move.kind == FIRST ? 0 : 1;
            after.spell = move.kind == FIRST ? before.spell : 0;
            after.shift = move.kind == REST || move.kind == WEEKLY ? 0 : before.shift;
            after.week = move.kind == WEEKLY ? 0 : before.week;
        }
        const bool is_offered = move.kind != SECOND || before.unmarked == 0;
        return is_offered && is_legal(after);
    }

    bool is_legal(const State& state) const {
        return state.spell <= order.spell_limit && state.shift <= order.shift_limit && state.week <= order.week_limit
            && state.clock <= order.latest;
    }
};

// Or is equal: of two equal states the search drops one then, and would go on from both otherwise.
bool dominates(const State& one, const State& other) {
    return one.clock <= other.clock && one.spell <= other.spell && one.shift <= other.shift && one.week <= other.week
        && one.unmarked <= other.unmarked;
}

// What a search has done, and when it shall stop.
struct Progress {
    std::optional<Word> stop_at;
    Time::time_point deadline;
    std::size_t labels = 0;
    std::size_t turns = 0;
    bool is_done = false;
    bool is_late = false;
};

// The search copies its visitor, so the progress stands outside.
struct Visitor : boost::default_r_c_shortest_paths_visitor {
    Progress* progress;

    explicit Visitor(Progress& seen) : progress(&seen) {}

    template <class Label> void on_label_not_dominated(const Label& label, const Graph&) {
        progress->labels += 1;
        progress->is_done = progress->stop_at == label.resident_vertex;
    }

    template <class Queue> bool on_enter_loop(const Queue&, const Graph&) {
        progress->turns += 1;
        progress->is_late = progress->turns % 1024 == 0 && Time::now() > progress->deadline;
        return !progress->is_done && !progress->is_late;
    }
};

Bytes read_file(const std::string& path) {
    std::ifstream file(path, std::ios::binary);
    if (!file) {
        throw std::runtime_error(path + " cannot be read");
    }
    return Bytes(std::istreambuf_iterator<char>(file), {});
}

// The word of this number, counted from 0: every word of a map and of an order stands at a multiple of four.
Word word(const Bytes& bytes, std::size_t number) {
    const std::size_t at = 4 * number;
    return bytes.at(at) | bytes.at(at + 1) << 8 | bytes.at(at + 2) << 16 | Word{bytes.at(at + 3)} << 24;
}

std::vector<Word> read_words(const std::string& path) {
    const Bytes bytes = read_file(path);
    std::vector<Word> words;
    for (std::size_t number = 0; number < bytes.size() / 4; ++number) {
        words.push_back(word(bytes, number));
    }
    return words;
}

Order read_order(const Bytes& bytes) {
    const auto at = [&bytes](std::size_t number) { return word(bytes, number); };
    return {at(0), at(1), at(2), at(3), at(4), at(5), at(6), at(7), at(8), at(9), at(10), at(11), at(12), at(13), at(14)};
}

// To the nearest second, an exact half to the even one, and never below 1.
Word road_time(Word metres, Word speed) {
    const Word dividend = 18 * metres, divisor = 5 * speed;
    const Word lower = dividend / divisor;
    const bool goes_up = 2 * (dividend % divisor) + lower % 2 > divisor;
    return std::max<Word>(lower + goes_up, 1);
}

// Pauses are edges from a car park to itself. Vertex 0 is no junction.
Graph read_graph(const Bytes& map, const Order& order, const std::vector<Word>& bans) {
    const std::size_t junctions = word(map, 1), roads = word(map, 2);
    Graph graph(junctions + 1);
    const auto add = [&graph](std::size_t from, std::size_t to, Kind kind, Word seconds, bool is_banned = false) {
        add_edge(from, to, Move{num_edges(graph), kind, seconds, is_banned}, graph);
    };
    for (std::size_t road = 0; road < roads; ++road) {
        const std::size_t at = 4 + 4 * junctions + 5 * road;
        const bool is_banned = std::binary_search(bans.begin(), bans.end(), road + 1);
        add(word(map, at), word(map, at + 1), DRIVE, road_time(word(map, at + 2), word(map, at + 3)), is_banned);
    }
    for (std::size_t junction = 1; junction <= junctions; ++junction) {
        if (word(map, 4 * junction + 1) == 0) {
            continue;
        }
        add(junction, junction, BREAK, order.break_time);
        add(junction, junction, REST, order.rest_time);
        if (order.first_part != 0) {
            add(junction, junction, FIRST, order.first_part);
            add(junction, junction, SECOND, order.second_part);
        }
        add(junction, junction, WEEKLY, order.weekly_rest);
    }
    return graph;
}

struct Trip {
    Order order;
    Graph graph;
    const Gates* gates;
};

// The undominated states at target, or those known there when the search is stopped.
std::vector<State> states_at_target(const Trip& trip, Progress& progress) {
    const auto& [order, graph, gates] = trip;
    std::vector<std::vector<Edge>> paths;
    std::vector<State> states;
    const State start{order.departure, order.spell, order.shift, order.week, 1, order.source};
    boost::r_c_shortest_paths(graph, get(boost::vertex_index, graph), get(&Move::index, graph), order.source,
        order.target, paths, states, start, Extension{order, gates}, dominates,
        boost::default_r_c_shortest_paths_allocator(), Visitor(progress));
    return states;
}

struct Search {
    std::vector<State> states;
    std::size_t labels;
    std::chrono::nanoseconds time;
};

// None where it does not end before the deadline.
std::optional<Search> timed_search(const Trip& trip, bool only_first, Time::time_point deadline) {
    Progress progress;
    progress.stop_at = only_first ? std::optional(trip.order.target) : std::nullopt;
    progress.deadline = deadline;
    const auto begun = Time::now();
    auto states = states_at_target(trip, progress);
    const auto time = Time::now() - begun;
    if (progress.is_late) {
        return std::nullopt;
    }
    return Search{std::move(states), progress.labels, time};
}

std::optional<Search> best_search(const Trip& trip, bool only_first, int runs, int seconds) {
    const auto deadline = Time::now() + std::chrono::seconds(seconds);
    std::optional<Search> best;
    for (int run = 0; run < runs; ++run) {
        auto search = timed_search(trip, only_first, deadline);
        if (search && (!best || search->time < best->time)) {
            best = std::move(search);
        }
    }
    return best;
}

// The lowest-ranked state at target is the answer's.
void print(const std::optional<Search>& search) {
    if (!search) {
        std::cout << "late\n";
        return;
    }
    const auto least = std::min_element(search->states.begin(), search->states.end());
    if (least == search->states.end()) {
        std::cout << "none ";
    } else {
        std::cout << "planned " << least->clock << ' ' << least->spell << ' ' << least->shift << ' ' << least->week << ' ';
    }
    std::cout << search->labels << ' ' << search->time.count() << '\n';
}

Trip read_trip(const std::string& folder, const Gates& gates) {
    const Order order = read_order(read_file(folder + "/order"));
    return {order, read_graph(read_file(folder + "/map"), order, read_words(folder + "/bans")), &gates};
}

} // namespace

int main(int count, char** arguments) try {
    if (count < 5) {
        throw std::invalid_argument("planner first|all RUNS SECONDS BAN_DAYS FOLDER...");
    }
    const bool only_first = std::string(arguments[1]) == "first";
    const int runs = std::stoi(arguments[2]), seconds = std::stoi(arguments[3]);
    const Gates gates(read_words(arguments[4]));
    for (int number = 5; number < count; ++number) {
        print(best_search(read_trip(arguments[number], gates), only_first, runs, seconds));
    }
} catch (const std::exception& failure) {
    std::cerr << failure.what() << '\n';
    return 1;
}
