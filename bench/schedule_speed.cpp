// Reads a kernel as bench/schedule_speed.program does, and says what LEMON's network simplex finds the flow
// worth, and how many microseconds that took.
#include <chrono>
#include <iostream>
#include <lemon/network_simplex.h>
#include <lemon/smart_graph.h>
#include <vector>

int main() {
  long nodes, base, count;
  std::cin >> nodes >> base >> count;
  lemon::SmartDigraph graph;
  std::vector<lemon::SmartDigraph::Node> node;
  for (long u = 0; u < 2 * nodes; ++u) node.push_back(graph.addNode());
  lemon::SmartDigraph::ArcMap<long> cost(graph);
  lemon::SmartDigraph::NodeMap<long> supply(graph, 0);
  long from, to, latency, offset;
  for (long edge = 0; edge < count; ++edge) {
    std::cin >> from >> to >> latency >> offset;
    cost[graph.addArc(node[from], node[to])] = -(latency + offset);
    cost[graph.addArc(node[to], node[nodes + from])] = offset;
  }
  for (long producer, width, consumer; std::cin >> producer >> width >> consumer;) {
    supply[node[producer]] += width;
    supply[node[nodes + producer]] -= width;
  }
  auto start = std::chrono::steady_clock::now();
  lemon::NetworkSimplex<lemon::SmartDigraph, long, long> simplex(graph);
  auto end = simplex.costMap(cost).supplyMap(supply).run();
  auto elapsed = std::chrono::steady_clock::now() - start;
  if (end != simplex.OPTIMAL) return 1;
  std::cout << -simplex.totalCost<long>() - base << " "
            << std::chrono::duration_cast<std::chrono::microseconds>(elapsed).count() << "\n";
}
