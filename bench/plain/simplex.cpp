// The network simplex of LEMON (Debian: liblemon-dev) on the flows that the planner solves: full batches, 128 slots, no names held.
//     g++ -O2 -o simplex simplex.cpp && ./simplex
// Names and lengths are those of the benchmark of lessons. Nodes are between the requests; each place is an arc for all slots, and
// each link with places inside an arc for one, which gains what the link saves.
#include <algorithm>
#include <chrono>
#include <cstdint>
#include <cstdio>
#include <vector>

#include <lemon/network_simplex.h>
#include <lemon/smart_graph.h>

const int FULL = 4096, SLOTS = 128;
enum Lengths { FIVE, ANY, FIVE_OR_MANY };

uint64_t state = 0x9E3779B97F4A7C15;
uint64_t draw() { state ^= state << 13; state ^= state >> 7; state ^= state << 17; return state; }

std::vector<int> in_turn(int count) {
    std::vector<int> numbers;
    for (int at = 0; at < FULL; at++) numbers.push_back(at % count);
    return numbers;
}

std::vector<int> by_zipf(int count) {
    state = 0x9E3779B97F4A7C15;
    std::vector<uint64_t> sums;
    uint64_t sum = 0;
    for (int number = 0; number < count; number++) sums.push_back(sum += (1ull << 40) / (number + 1));
    std::vector<int> numbers;
    for (int at = 0; at < FULL; at++) numbers.push_back(std::upper_bound(sums.begin(), sums.end(), draw() % sum) - sums.begin());
    return numbers;
}

// What a read saves: the message with the name written, less the one with its slot alone.
int saving(int number, Lengths lengths, bool first) {
    auto size = [](int n) { return n < 240 ? 1 : n < 2288 ? 2 : 3; };
    int length = lengths == FIVE ? 5 : lengths == ANY ? 5 + number * 37 % 251 : number % 2 == 0 ? 5 : 200;
    int field = 1 + size(length) + length, rest = (first ? 8 : 4) + 11;
    int written = rest + size(field) + field, read = rest + 2;
    return size(written) + written - size(read) - read;
}

void measure(const char *title, const std::vector<int> &names, Lengths lengths) {
    double best = 1e9;
    for (int round = 0; round < 3; round++) {
        auto start = std::chrono::steady_clock::now();
        lemon::SmartDigraph graph;
        std::vector<lemon::SmartDigraph::Node> nodes;
        for (int at = 0; at <= FULL; at++) nodes.push_back(graph.addNode());
        std::vector<std::pair<int, int>> limits;
        auto add = [&](int from, int to, int limit, int cost) { graph.addArc(nodes[from], nodes[to]); limits.push_back({limit, cost}); };
        for (int at = 0; at < FULL; at++) add(at, at + 1, SLOTS - 1, 0);
        std::vector<int> last(10000, -1);
        for (int at = 0; at < FULL; at++) {
            int from = last[names[at]];
            if (from >= 0 && from < at) add(from, at, 1, -saving(names[at], lengths, at == 0));
            last[names[at]] = at + 1;
        }
        lemon::SmartDigraph::ArcMap<int> upper(graph), cost(graph);
        for (lemon::SmartDigraph::ArcIt arc(graph); arc != lemon::INVALID; ++arc) {
            upper[arc] = limits[graph.id(arc)].first;
            cost[arc] = limits[graph.id(arc)].second;
        }
        lemon::NetworkSimplex<lemon::SmartDigraph, int, long> simplex(graph);
        simplex.upperMap(upper).costMap(cost).stSupply(nodes[0], nodes[FULL], SLOTS - 1);
        if (simplex.run() != simplex.OPTIMAL) return;
        best = std::min(best, std::chrono::duration<double>(std::chrono::steady_clock::now() - start).count());
    }
    printf("%s: %.3f M rows/s\n", title, FULL / best / 1e6);
}

int main() {
    printf("simplex:\n");
    measure("128 names in turn", in_turn(128), FIVE);
    measure("2,000 names in turn", in_turn(2000), FIVE);
    measure("2,000 names in turn, of 5 to 255 bytes", in_turn(2000), ANY);
    measure("1,000 names by Zipf's law, of 5 to 255 bytes", by_zipf(1000), ANY);
    measure("1,000 names by Zipf's law, of 5 or 200 bytes", by_zipf(1000), FIVE_OR_MANY);
    measure("4,000 names by Zipf's law, of 5 to 255 bytes", by_zipf(4000), ANY);
    measure("4,000 names by Zipf's law, of 5 or 200 bytes", by_zipf(4000), FIVE_OR_MANY);
}
