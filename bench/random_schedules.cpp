// Reads kernels, one a line, as bench/random_schedules.program does, and says of each what LEMON's network
// simplex finds the flow worth, or `none` where its worth has no bound, so that there are no times.
#include <iostream>
#include <lemon/network_simplex.h>
#include <lemon/smart_graph.h>
#include <sstream>
#include <string>
#include <vector>

static void solve(std::istream& numbers) {
  long nodes, base, count;
  numbers >> nodes >> base >> count;
  lemon::SmartDigraph graph;
  std::vector<lemon::SmartDigraph::Node> node;
  for (long u = 0; u < 2 * nodes; ++u) node.push_back(graph.addNode());
  lemon::SmartDigraph::ArcMap<long> cost(graph);
  lemon::SmartDigraph::NodeMap<long> supply(graph, 0);
  long from, to, latency, offset;
  for (long edge = 0; edge < count; ++edge) {
    numbers >> from >> to >> latency >> offset;
    cost[graph.addArc(node[from], node[to])] = -(latency + offset);
    cost[graph.addArc(node[to], node[nodes + from])] = offset;
  }
  for (long producer, width, consumer; numbers >> producer >> width >> consumer;) {
    supply[node[producer]] += width;
    supply[node[nodes + producer]] -= width;
  }
  lemon::NetworkSimplex<lemon::SmartDigraph, long, long> simplex(graph);
  auto end = simplex.costMap(cost).supplyMap(supply).run();
  if (end == simplex.OPTIMAL) {
    std::cout << -simplex.totalCost<long>() - base << "\n";
  } else {
    std::cout << (end == simplex.UNBOUNDED ? "none\n" : "no flow\n");
  }
}

int main() {
  for (std::string line; std::getline(std::cin, line);) {
    std::istringstream numbers(line);
    solve(numbers);
  }
}
