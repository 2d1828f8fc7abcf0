// with_boost TRACE: the verdict on a trace that is taken for sound, by Boost.Graph: a graph with an edge from each element to
// those that some response shows after it, its topological order, or a shortest cycle by a search from each element.
#include <boost/graph/breadth_first_search.hpp>
#include <boost/graph/compressed_sparse_row_graph.hpp>
#include <boost/graph/topological_sort.hpp>
#include <algorithm>
#include <fstream>
#include <iostream>
#include <string>
#include <unordered_map>
#include <utility>
#include <vector>

using Graph = boost::compressed_sparse_row_graph<boost::directedS>;
using Vertex = std::uint32_t;

struct Responses {
    std::vector<std::string> names;
    std::vector<std::vector<Vertex>> lists;
};

static Responses read(const char* path) {
    std::ifstream in(path);
    std::string line;
    Responses got;
    std::unordered_map<std::string, Vertex> numbers;
    while (std::getline(in, line)) {
        auto colon = line.find(" :");
        if (colon == std::string::npos) continue;
        std::vector<Vertex> list;
        for (std::size_t at = colon + 2; at < line.size();) {
            auto end = std::min(line.find(' ', at + 1), line.size());
            std::string name = line.substr(at + 1, end - at - 1);
            auto [place, is_new] = numbers.try_emplace(name, got.names.size());
            if (is_new) got.names.push_back(name);
            list.push_back(place->second);
            at = end;
        }
        got.lists.push_back(std::move(list));
    }
    return got;
}

// An edge for each two elements that a response shows one before the other, once.
static Graph graph_of(const Responses& responses) {
    std::size_t n = responses.names.size();
    std::vector<bool> shown(n * n);
    for (const auto& list : responses.lists)
        for (std::size_t i = 0; i < list.size(); ++i)
            for (std::size_t j = i + 1; j < list.size(); ++j) shown[list[i] * n + list[j]] = true;
    std::vector<std::pair<Vertex, Vertex>> edges;
    for (std::size_t a = 0; a < n; ++a)
        for (std::size_t b = 0; b < n; ++b)
            if (shown[a * n + b]) edges.emplace_back(a, b);
    return Graph(boost::edges_are_sorted, edges.begin(), edges.end(), n);
}

struct Found {};

// Ends a search where it comes back to its source, or farther than is of use.
struct Back : boost::default_bfs_visitor {
    Vertex source;
    std::size_t most;
    std::vector<std::size_t>& depth;
    std::vector<Vertex>& from;
    std::size_t& length;
    Back(Vertex source, std::size_t most, std::vector<std::size_t>& depth, std::vector<Vertex>& from, std::size_t& length)
        : source(source), most(most), depth(depth), from(from), length(length) {}
    template <class E> void tree_edge(E e, const Graph& g) {
        auto a = boost::source(e, g), b = boost::target(e, g);
        depth[b] = depth[a] + 1;
        from[b] = a;
    }
    template <class E> void examine_edge(E e, const Graph& g) {
        auto a = boost::source(e, g);
        if (depth[a] + 1 >= most) throw Found();
        if (boost::target(e, g) == source) {
            length = depth[a] + 1;
            from[source] = a;
            throw Found();
        }
    }
};

static std::vector<Vertex> shortest_cycle(const Graph& graph) {
    std::size_t n = boost::num_vertices(graph);
    std::vector<Vertex> best, from(n);
    std::vector<std::size_t> depth(n);
    for (Vertex source = 0; source < n && best.size() != 2; ++source) {
        std::size_t length = 0;
        depth[source] = 0;
        try {
            boost::breadth_first_search(graph, source,
                boost::visitor(Back(source, best.empty() ? n + 1 : best.size(), depth, from, length)));
        } catch (Found) {
        }
        if (length == 0) continue;
        best.clear();
        for (Vertex at = from[source]; at != source; at = from[at]) best.push_back(at);
        best.push_back(source);
        std::reverse(best.begin(), best.end());
    }
    return best;
}

int main(int, char** words) {
    Responses responses = read(words[1]);
    Graph graph = graph_of(responses);
    std::vector<Vertex> order;
    try {
        boost::topological_sort(graph, std::back_inserter(order));
        std::cout << "accepted " << order.size() << "\n";
    } catch (const boost::not_a_dag&) {
        std::vector<Vertex> cycle = shortest_cycle(graph);
        std::cout << "refused " << cycle.size();
        for (Vertex x : cycle) std::cout << " " << responses.names[x];
        std::cout << "\n";
    }
}
