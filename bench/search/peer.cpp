// The yardstick of `bench/search`: it answers the pairs of a file on weight files, by Boost's r_c_shortest_paths or, with
// --plain, by Martins' search with a binary heap, and prints the costs of each answer as the program's `costs` does:
//   peer [--plain] PAIRS FILE FILE [FILE [FILE]]
// Its last line on standard error has the relevant labels, the seconds of reading and of searching, and the peak of memory in kB.
// A label is a node with a cost that no other walk to the node dominates; it is relevant where no cost of the target dominates it.
#include <sys/resource.h>

#include <algorithm>
#include <array>
#include <chrono>
#include <cstdint>
#include <cstdio>
#include <cstdlib>
#include <cstring>
#include <queue>
#include <string>
#include <vector>
#ifndef NO_BOOST
#include <boost/graph/compressed_sparse_row_graph.hpp>
#include <boost/graph/r_c_shortest_paths.hpp>
#endif

using Node = std::uint32_t;
template <int D> using Cost = std::array<std::uint64_t, D>;

struct Network {
    Node nodes = 0;
    std::vector<Node> tails, heads;
    std::vector<std::vector<std::uint32_t>> weights;  // one list a criterion
};
struct Pair { Node from, to; };

[[noreturn]] void stop(const std::string &why) {
    std::fprintf(stderr, "peer: %s\n", why.c_str());
    std::exit(1);
}

// Calls `use` with the form and up to three numbers of each line that is neither blank nor a comment.
template <class Use> void each_line(const char *name, Use use) {
    FILE *file = std::fopen(name, "r");
    if (!file) stop(std::string("no file ") + name);
    char line[65600];
    while (std::fgets(line, sizeof line, file)) {
        if (line[0] != 'p' && line[0] != 'a' && line[0] != 'q') continue;
        char *at = line + 1;
        while (*at && (*at < '0' || *at > '9' || at[-1] != ' ')) ++at;  // past words such as sp and p2p
        std::uint64_t numbers[3] = {0, 0, 0};
        for (auto &number : numbers) number = std::strtoull(at, &at, 10);
        use(line[0], numbers);
    }
    std::fclose(file);
}

void read_weights(const char *name, Network &net) {
    bool first = net.weights.empty();
    net.weights.emplace_back();
    each_line(name, [&](char form, const std::uint64_t *n) {
        if (form == 'p') net.nodes = Node(n[0]);
        if (form != 'a') return;
        if (first) { net.tails.push_back(Node(n[0] - 1)); net.heads.push_back(Node(n[1] - 1)); }
        net.weights.back().push_back(std::uint32_t(n[2]));
    });
}

std::vector<Pair> read_pairs(const char *name) {
    std::vector<Pair> pairs;
    each_line(name, [&](char form, const std::uint64_t *n) { if (form == 'q') pairs.push_back({Node(n[0]), Node(n[1])}); });
    return pairs;
}

template <int D> bool at_most(const Cost<D> &a, const Cost<D> &b) {
    for (int i = 0; i < D; ++i) if (a[i] > b[i]) return false;
    return true;
}
template <int D> bool covered(const std::vector<Cost<D>> &costs, const Cost<D> &cost) {
    // Under two criteria, costs that come in ascending order cover another one exactly where the last of them does.
    if (D == 2) return !costs.empty() && at_most<D>(costs.back(), cost);
    return std::any_of(costs.rbegin(), costs.rend(), [&](auto &c) { return at_most<D>(c, cost); });
}

template <int D> struct Answer {
    std::vector<Cost<D>> costs;
    std::vector<Cost<D>> labels;  // the costs of all labels that were settled
    std::uint64_t relevant() const {
        return std::count_if(labels.begin(), labels.end(), [&](auto &label) {
            return std::none_of(costs.begin(), costs.end(), [&](auto &c) { return c != label && at_most<D>(c, label); });
        });
    }
};

// Martins' search: the label of the lexicographically least cost is settled next, unless a settled one at its node or at the
// target is nowhere greater.
template <int D> struct Plain {
    struct Waiting {
        Cost<D> cost;
        Node node;
        bool operator>(const Waiting &other) const { return cost > other.cost; }
    };
    const Network &net;
    std::vector<std::size_t> begin;
    std::vector<std::uint32_t> out;
    explicit Plain(const Network &network) : net(network), begin(net.nodes + 1), out(net.tails.size()) {
        for (Node tail : net.tails) ++begin[tail + 1];
        for (Node v = 0; v < net.nodes; ++v) begin[v + 1] += begin[v];
        std::vector<std::size_t> next(begin.begin(), begin.end() - 1);
        for (std::size_t k = 0; k < out.size(); ++k) out[next[net.tails[k]]++] = std::uint32_t(k);
    }
    Answer<D> answer(Node from, Node to) const {
        Answer<D> found;
        std::vector<std::vector<Cost<D>>> settled(net.nodes);
        std::priority_queue<Waiting, std::vector<Waiting>, std::greater<Waiting>> waiting;
        waiting.push({Cost<D>{}, from});
        while (!waiting.empty()) {
            Waiting label = waiting.top();
            waiting.pop();
            if (covered<D>(settled[label.node], label.cost)) continue;
            bool hopeless = false;  // a cost equal to one of the target's isn't
            for (auto &c : settled[to]) hopeless = hopeless || (c != label.cost && at_most<D>(c, label.cost));
            if (hopeless) continue;
            settled[label.node].push_back(label.cost);
            found.labels.push_back(label.cost);
            for (std::size_t i = begin[label.node]; i < begin[label.node + 1]; ++i) {
                Cost<D> cost = label.cost;
                for (int j = 0; j < D; ++j) cost[j] += net.weights[j][out[i]];
                if (!covered<D>(settled[net.heads[out[i]]], cost)) waiting.push({cost, net.heads[out[i]]});
            }
        }
        found.costs = settled[to];
        return found;
    }
};

#ifndef NO_BOOST
template <int D> struct Boost {
    using Graph = boost::compressed_sparse_row_graph<boost::directedS, boost::no_property, std::uint32_t, boost::no_property, Node, std::uint32_t>;
    struct Extend {
        const Network &net;
        template <class E> bool operator()(const Graph &graph, Cost<D> &to, const Cost<D> &from, const E &edge) const {
            for (int j = 0; j < D; ++j) to[j] = from[j] + net.weights[j][graph[edge]];
            return true;
        }
    };
    struct Dominance {
        bool operator()(const Cost<D> &a, const Cost<D> &b) const { return at_most<D>(a, b); }
    };
    struct Visitor : boost::default_r_c_shortest_paths_visitor {
        std::vector<Cost<D>> *labels;
        explicit Visitor(std::vector<Cost<D>> *settled) : labels(settled) {}
        template <class L> void on_label_not_dominated(const L &label, const Graph &) { labels->push_back(label.cumulated_resource_consumption); }
    };
    const Network &net;
    Graph graph;
    explicit Boost(const Network &network) : net(network) {
        std::vector<std::pair<Node, Node>> ends;
        std::vector<std::uint32_t> arcs;
        for (std::size_t k = 0; k < net.tails.size(); ++k) {
            ends.push_back({net.tails[k], net.heads[k]});
            arcs.push_back(std::uint32_t(k));
        }
        graph = Graph(boost::edges_are_unsorted_multi_pass, ends.begin(), ends.end(), arcs.begin(), net.nodes);
    }
    Answer<D> answer(Node from, Node to) const {
        Answer<D> found;
        if (from == to) {  // the library would go through the whole graph
            found.costs = found.labels = {Cost<D>{}};
            return found;
        }
        std::vector<std::vector<typename boost::graph_traits<Graph>::edge_descriptor>> walks;
        boost::r_c_shortest_paths(graph, get(boost::vertex_index, graph), get(boost::edge_index, graph), from, to, walks, found.costs, Cost<D>{},
                                  Extend{net}, Dominance(), boost::default_r_c_shortest_paths_allocator(), Visitor(&found.labels));
        std::sort(found.costs.begin(), found.costs.end());
        return found;
    }
};
#endif

double now() { return std::chrono::duration<double>(std::chrono::steady_clock::now().time_since_epoch()).count(); }

template <int D> void print(const Pair &pair, const Answer<D> &found) {
    std::printf("r 0 %u %u %zu\n", pair.from, pair.to, found.costs.size());
    for (auto &cost : found.costs) {
        std::printf("v");
        for (auto component : cost) std::printf(" %llu", (unsigned long long)component);
        std::printf("\n");
    }
}

template <int D, class Search> void answer_all(const Network &net, const std::vector<Pair> &pairs, double begun) {
    Search search(net);
    double read = now(), searching = 0;
    std::uint64_t relevant = 0;
    for (auto &pair : pairs) {
        if (pair.from < 1 || pair.from > net.nodes || pair.to < 1 || pair.to > net.nodes) {
            std::printf("x 0 %u %u node\n", pair.from, pair.to);
            continue;
        }
        double at = now();
        Answer<D> found = search.answer(pair.from - 1, pair.to - 1);
        searching += now() - at;
        print<D>(pair, found);
        relevant += found.relevant();
    }
    struct rusage usage;
    getrusage(RUSAGE_SELF, &usage);
    std::fprintf(stderr, "labels %llu read %.6f search %.6f memory %ld\n", (unsigned long long)relevant, read - begun, searching, usage.ru_maxrss);
}

template <int D> void run(bool plain, const Network &net, const std::vector<Pair> &pairs, double begun) {
#ifndef NO_BOOST
    if (!plain) return answer_all<D, Boost<D>>(net, pairs, begun);
#endif
    if (!plain) stop("built without Boost");
    answer_all<D, Plain<D>>(net, pairs, begun);
}

int main(int count, char **words) {
    bool plain = count > 1 && !std::strcmp(words[1], "--plain");
    int first = plain ? 2 : 1, criteria = count - first - 1;
    if (criteria < 2 || criteria > 4) stop("peer [--plain] PAIRS FILE FILE [FILE [FILE]]");
    double begun = now();
    Network net;
    std::vector<Pair> pairs = read_pairs(words[first]);
    for (int i = first + 1; i < count; ++i) read_weights(words[i], net);
    if (criteria == 2) run<2>(plain, net, pairs, begun);
    else if (criteria == 3) run<3>(plain, net, pairs, begun);
    else run<4>(plain, net, pairs, begun);
}
