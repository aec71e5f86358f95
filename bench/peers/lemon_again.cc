// LEMON peer: lemon_again FILE ROUNDS CHANGES solves the instance of a file, and then, in each round,
// gives random arcs other costs and solves it again by the network simplex, from the kept graph and
// the kept solver. It prints the median of a round's CPU milliseconds, and the sum of the costs.
// Build: g++ -O3 -DNDEBUG lemon_again.cc -o lemon_again -llemon
#include "dimacs_fast.h"
#include <algorithm>
#include <lemon/network_simplex.h>
#include <lemon/smart_graph.h>
#include <time.h>
#include <vector>
using namespace lemon;
typedef SmartDigraph G;

static uint64_t seed = 12345;
static ll chance(ll most) {
    seed = seed * 6364136223846793005ULL + 1442695040888963407ULL;
    return (ll)(seed >> 33) % most;
}

static double cpu() {
    timespec t;
    clock_gettime(CLOCK_THREAD_CPUTIME_ID, &t);
    return t.tv_sec * 1e3 + t.tv_nsec * 1e-6;
}

int main(int argc, char **argv) {
    if (argc < 4) return 2;
    Inst I = read_fast(argv[1]);
    int rounds = atoi(argv[2]), changes = atoi(argv[3]), arcs = (int)I.src.size();
    G g;
    G::ArcMap<ll> low(g), cap(g), cost(g);
    G::NodeMap<ll> supply(g);
    ll most = *std::max_element(I.cost.begin(), I.cost.end()), sum = 0;
    for (int v = 1; v <= I.n; v++) supply[g.addNode()] = (ll)I.b[v];
    for (int a = 0; a < arcs; a++) {
        G::Arc e = g.addArc(g.nodeFromId(I.src[a] - 1), g.nodeFromId(I.dst[a] - 1));
        low[e] = I.low[a], cap[e] = I.cap[a], cost[e] = I.cost[a];
    }
    NetworkSimplex<G, ll, ll> simplex(g);
    simplex.lowerMap(low).upperMap(cap).costMap(cost).supplyMap(supply).run();
    std::vector<double> times;
    for (int round = 0; round < rounds; round++) {
        for (int i = 0; i < changes; i++) {
            G::Arc e = g.arcFromId((int)chance(arcs));
            cost[e] = 1 + chance(most);
        }
        double start = cpu();
        simplex.costMap(cost).run();
        times.push_back(cpu() - start);
        sum += simplex.totalCost<ll>();
    }
    std::sort(times.begin(), times.end());
    printf("%.6f %lld\n", times[rounds / 2], sum);
    return 0;
}
