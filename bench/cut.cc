// Highest-label push-relabel with current arcs, the gap heuristic and global relabelling, for
// comparison with crates/cut_place. It finds the value of a greatest flow, which is the cost of a least
// cut, and neither a flow nor the cut's sides: the work is left out by which what is stuck goes back to
// the source. Usage: cut NODES ARCS SEED ROUNDS: makes a net by a linear congruential generator, finds
// the value so many times, and prints it. `bench_programs --cut` makes the same net.
#include <algorithm>
#include <cstdint>
#include <cstdio>
#include <cstdlib>
#include <string>
#include <vector>

using u128 = unsigned __int128;

struct Net {
    int nodes;
    std::vector<int> first, next, head;
    std::vector<u128> room;

    explicit Net(int n) : nodes(n), first(n, -1) {}

    void add(int from, int to, u128 cap) {
        for (int back = 0; back < 2; ++back) {
            next.push_back(first[from]);
            first[from] = static_cast<int>(head.size());
            head.push_back(to);
            room.push_back(back ? 0 : cap);
            std::swap(from, to);
        }
    }
};

struct Solver {
    Net net;
    int source = 0, sink = 1, highest = 0, work = 0;
    std::vector<int> label, current, count;
    std::vector<u128> excess;
    std::vector<std::vector<int>> active;

    explicit Solver(const Net& n)
        : net(n), label(n.nodes), current(n.nodes), count(2 * n.nodes + 1), excess(n.nodes), active(2 * n.nodes + 1) {}

    void activate(int v) {
        if (v == source || v == sink || excess[v] == 0 || label[v] >= net.nodes) return;
        active[label[v]].push_back(v);
        highest = std::max(highest, label[v]);
    }

    void global_relabel() {
        std::fill(label.begin(), label.end(), net.nodes);
        std::fill(count.begin(), count.end(), 0);
        for (auto& bucket : active) bucket.clear();
        highest = 0;
        std::vector<int> queue{sink};
        label[sink] = 0;
        for (size_t i = 0; i < queue.size(); ++i) {
            int v = queue[i];
            for (int a = net.first[v]; a >= 0; a = net.next[a]) {
                int u = net.head[a];
                if (label[u] == net.nodes && u != source && net.room[a ^ 1] > 0) {
                    label[u] = label[v] + 1;
                    queue.push_back(u);
                }
            }
        }
        for (int v = 0; v < net.nodes; ++v) {
            ++count[label[v]];
            current[v] = net.first[v];
            activate(v);
        }
    }

    void push(int v, int a) {
        u128 amount = std::min(excess[v], net.room[a]);
        int u = net.head[a];
        net.room[a] -= amount;
        net.room[a ^ 1] += amount;
        bool rests = excess[u] == 0;
        excess[v] -= amount;
        excess[u] += amount;
        if (rests) activate(u);
    }

    void relabel(int v) {
        int old = label[v], least = net.nodes, best = -1;
        for (int a = net.first[v]; a >= 0; a = net.next[a]) {
            ++work;
            if (net.room[a] > 0 && label[net.head[a]] + 1 < least) {
                least = label[net.head[a]] + 1;
                best = a;
            }
        }
        --count[old];
        if (count[old] == 0) {
            for (int u = 0; u < net.nodes; ++u) {
                if (label[u] > old && label[u] < net.nodes) {
                    --count[label[u]];
                    label[u] = net.nodes;
                    ++count[net.nodes];
                }
            }
            least = net.nodes;
        }
        label[v] = least;
        ++count[least];
        current[v] = best;
    }

    void discharge(int v) {
        while (excess[v] > 0 && label[v] < net.nodes) {
            int a = current[v];
            if (a < 0) {
                relabel(v);
            } else if (net.room[a] > 0 && label[v] == label[net.head[a]] + 1) {
                push(v, a);
            } else {
                current[v] = net.next[a];
            }
        }
    }

    u128 run() {
        for (int a = net.first[source]; a >= 0; a = net.next[a]) {
            excess[source] += net.room[a];
            u128 amount = net.room[a];
            net.room[a] = 0;
            net.room[a ^ 1] += amount;
            excess[net.head[a]] += amount;
        }
        global_relabel();
        while (highest >= 0) {
            if (active[highest].empty()) {
                --highest;
                continue;
            }
            int v = active[highest].back();
            active[highest].pop_back();
            if (label[v] == highest) discharge(v);
            // (of six frequencies tried, this one took the fewest instructions over nets of 4,096 nodes)
            if (work > 3 * net.nodes + static_cast<int>(net.head.size()) / 2) {
                work = 0;
                global_relabel();
            }
        }
        return excess[sink];
    }
};

std::string decimal(u128 value) {
    std::string digits;
    do {
        digits.insert(digits.begin(), static_cast<char>('0' + static_cast<int>(value % 10)));
        value /= 10;
    } while (value > 0);
    return digits;
}

int main(int argc, char** argv) {
    int nodes = argc > 1 ? std::atoi(argv[1]) : 4096;
    int arcs = argc > 2 ? std::atoi(argv[2]) : 16384;
    std::uint64_t state = argc > 3 ? std::strtoull(argv[3], nullptr, 10) : 1;
    int rounds = argc > 4 ? std::atoi(argv[4]) : 20;
    auto draw = [&state] {
        state = state * 6364136223846793005u + 1442695040888963407u;
        return static_cast<std::uint32_t>(state >> 33);
    };
    Net net(nodes);
    for (int k = 0; k < arcs; ++k) {
        int from = static_cast<int>(draw() % nodes), to = static_cast<int>(draw() % nodes);
        u128 cap = static_cast<u128>(draw()) << 80;
        // a sixteenth of the arcs leave the source, and another enters the sink
        if (k % 16 == 0) from = 0;
        if (k % 16 == 1) to = 1;
        if (from != to) net.add(from, to, cap);
    }
    u128 value = 0;
    for (int k = 0; k < rounds; ++k) value = Solver(net).run();
    std::printf("cost %s\n", decimal(value).c_str());
}
