// A peer of `pit solve`: the maximum flow of Boost's boykov_kolmogorov_max_flow (Boykov and Kolmogorov 2004).
//
//     boost_bk PREC UPIT [CERT]
//
// Prints how many blocks the pit has and what it is worth, as `pit check` prints them, and writes a certificate at GROUP WORTH
// where it is given a file. Amounts are millionths in 64 bits.
#include <boost/graph/adjacency_list.hpp>
#include <boost/graph/boykov_kolmogorov_max_flow.hpp>

#include "model.h"

using namespace boost;
using Traits = adjacency_list_traits<vecS, vecS, directedS>;
using Edge = Traits::edge_descriptor;
using VertexProperties = property<vertex_index_t, long,
    property<vertex_color_t, default_color_type, property<vertex_distance_t, long, property<vertex_predecessor_t, Edge>>>>;
using EdgeProperties = property<edge_capacity_t, long long,
    property<edge_residual_capacity_t, long long, property<edge_reverse_t, Edge>>>;
using Graph = adjacency_list<vecS, vecS, directedS, VertexProperties, EdgeProperties>;

static void add_arc(Graph &graph, uint32_t from, uint32_t to, long long capacity) {
    Edge forward = add_edge(from, to, graph).first, backward = add_edge(to, from, graph).first;
    put(edge_capacity, graph, forward, capacity);
    put(edge_capacity, graph, backward, 0);
    put(edge_reverse, graph, forward, backward);
    put(edge_reverse, graph, backward, forward);
}

// Picard's network (1976): the source gives to blocks worth something, the others give to the sink, and each block can give
// any amount to its predecessors.
static Graph network_of(const Model &model) {
    uint32_t source = model.n, sink = model.n + 1;
    long long all = 1;
    for (int64_t value : model.values) all += std::max<int64_t>(value, 0);
    Graph graph(model.n + 2);
    for (uint32_t b = 0; b < model.n; b++) {
        if (model.values[b] > 0) add_arc(graph, source, b, model.values[b]);
        if (model.values[b] < 0) add_arc(graph, b, sink, -model.values[b]);
        for (uint32_t i = model.first[b]; i < model.first[b + 1]; i++) add_arc(graph, b, model.predecessors[i], all);
    }
    return graph;
}

// What flows over the arcs of the network out of a node, each with its head; arcs back have no capacity.
static void write_flows(FILE *file, const Graph &graph, const char *kind, uint32_t from, uint32_t least, uint32_t most) {
    graph_traits<Graph>::out_edge_iterator edge, end;
    for (tie(edge, end) = out_edges(from, graph); edge != end; ++edge) {
        uint32_t head = target(*edge, graph);
        long long flow = get(edge_capacity, graph, *edge) - get(edge_residual_capacity, graph, *edge);
        if (flow <= 0 || head < least || head > most) continue;
        if (!strcmp(kind, "SOURCE")) fprintf(file, "SOURCE %u %lld000 0\n", head, flow);
        if (!strcmp(kind, "REST")) fprintf(file, "REST %u %u %lld000 0\n", from, head, flow);
        if (!strcmp(kind, "SINK")) fprintf(file, "SINK %u %lld000 0\n", from, flow);
    }
}

static void write_certificate(const char *name, uint32_t n, const Graph &graph, const std::vector<uint32_t> &pit) {
    FILE *file = fopen(name, "w");
    if (!file) stop(std::string("can't write ") + name);
    fprintf(file, "PITCERT 1\nBLOCKS %u\nPRICE OBJECTIVE\nGROUP WORTH\n", n);
    for (uint32_t b : pit) fprintf(file, "PIT %u\n", b);
    write_flows(file, graph, "SOURCE", n, 0, n - 1);
    for (uint32_t b = 0; b < n; b++) write_flows(file, graph, "REST", b, 0, n - 1);
    for (uint32_t b = 0; b < n; b++) write_flows(file, graph, "SINK", b, n + 1, n + 1);
    fputs("END\n", file);
    fclose(file);
}

int main(int count, char **words) {
    if (count < 3 || count > 4) stop("boost_bk PREC UPIT [CERT]");
    Model model = read_model(words[1], words[2]);
    Graph graph = network_of(model);
    boykov_kolmogorov_max_flow(graph, model.n, model.n + 1);
    std::vector<uint32_t> pit;
    i128 worth = 0;
    for (uint32_t b = 0; b < model.n; b++) {
        // The source's tree holds what the source still reaches: the smallest pit of those worth most.
        if (get(vertex_color, graph, b) != black_color) continue;
        pit.push_back(b);
        worth += model.values[b];
    }
    if (count == 4) write_certificate(words[3], model.n, graph, pit);
    printf("%zu %s\n", pit.size(), decimal(worth * 1000).c_str());
    fflush(stdout);
    _Exit(0);  // the graph isn't taken down, which would cost the peer seconds that say nothing of the method
}
