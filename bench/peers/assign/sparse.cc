// The cost of a least assignment by LEMON's network simplex.
#include "instance.h"
#include <lemon/network_simplex.h>
#include <lemon/smart_graph.h>

int main(int, char **words) {
    typedef lemon::SmartDigraph Graph;
    Assignment read = read_assignment(words[1]);
    Graph graph;
    graph.reserveNode(read.nodes);
    graph.reserveArc(read.rows.size());
    Graph::NodeMap<long long> supplies(graph);
    Graph::ArcMap<long long> caps(graph), costs(graph);
    for (int v = 1; v <= read.nodes; v++) supplies[graph.addNode()] = read.is_row[v] ? 1 : -1;
    for (size_t k = 0; k < read.rows.size(); k++) {
        Graph::Arc arc = graph.addArc(graph.nodeFromId(read.rows[k] - 1), graph.nodeFromId(read.columns[k] - 1));
        caps[arc] = 1;
        costs[arc] = read.costs[k];
    }
    lemon::NetworkSimplex<Graph, long long, long long> simplex(graph);
    simplex.upperMap(caps).costMap(costs).supplyMap(supplies);
    if (simplex.run() != simplex.OPTIMAL) return 1;
    printf("s %lld\n", (long long)simplex.totalCost<long long>());
}
