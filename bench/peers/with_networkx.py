#!/usr/bin/env python3
"""with_networkx.py TRACE: the verdict on a trace that is taken for sound, by networkx: a graph with an edge from each element
to those that some response shows after it, its topological order, or a shortest cycle by a search from each element."""
import sys
from itertools import combinations

import networkx
from responses import responses_of


def shortest_cycle(graph: networkx.DiGraph) -> list[str]:
    """A shortest cycle of a graph that has one: from each element the shortest way back to it."""
    best = None
    for part in networkx.strongly_connected_components(graph):
        inside = graph.subgraph(part)
        for source in inside if len(part) > 1 else ():
            back = {before: None for before in inside.predecessors(source)}
            ways = networkx.single_source_shortest_path(inside, source, cutoff=len(best) - 2 if best else None)
            for last in back:
                if last in ways and (best is None or len(ways[last]) < len(best)):
                    best = ways[last]
            if best is not None and len(best) == 2:
                return best
    return best


def main() -> None:
    graph = networkx.DiGraph()
    for _, names in responses_of(sys.argv[1]):
        graph.add_nodes_from(names)
        graph.add_edges_from(combinations(names, 2))
    if networkx.is_directed_acyclic_graph(graph):
        order = list(networkx.topological_sort(graph))
        print("accepted", len(order))
    else:
        cycle = shortest_cycle(graph)
        print("refused", len(cycle), " ".join(cycle))


if __name__ == "__main__":
    main()
