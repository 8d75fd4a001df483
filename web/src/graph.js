// All orders of a program as a graph: its nodes are the states that can be reached, its edges the moves. Everything here is plain values.

// The nodes are numbered in the order in which the search reached them, from 0, so that the first edge to a node is the last move of a
// shortest list of moves to it.
export function graphOf(edges) {
  const count = 1 + Math.max(0, ...edges.map(({ to }) => to));
  const leads = Array.from({ length: count }, () => new Map());
  const came = Array.from({ length: count }, () => null);
  for (const edge of edges) {
    leads[edge.from].set(edge.move, edge.to);
    if (edge.to > 0) came[edge.to] ??= edge;
  }
  return { edges, count, leads, came };
}

// A shortest list of moves to a node.
export function routeTo({ came }, node) {
  const moves = [];
  for (let edge = came[node]; edge; edge = came[edge.from]) moves.push(edge.move);
  return moves.reverse();
}

// The nodes that a list of moves passes, the first one 0; null where it leads out of the graph.
export function walk({ leads }, moves) {
  const nodes = [0];
  for (const move of moves) {
    const next = leads[nodes.at(-1)].get(move);
    if (next === undefined) return null;
    nodes.push(next);
  }
  return nodes;
}

// The nodes in an order in which each edge leads on: no order of moves comes back to a state.
function forwards({ leads, edges, count }) {
  const waits = Array.from({ length: count }, () => 0);
  for (const { to } of edges) waits[to] += 1;
  const order = [0];
  for (const node of order) for (const next of leads[node].values()) if ((waits[next] -= 1) === 0) order.push(next);
  return order;
}

// For each node its layer: the most moves that lead to it.
export function layersOf(graph) {
  const layers = Array.from({ length: graph.count }, () => 0);
  for (const node of forwards(graph)) for (const next of graph.leads[node].values()) layers[next] = Math.max(layers[next], layers[node] + 1);
  return layers;
}

// Where each node is: layers from left to right, one unit apart, and in each of them its nodes around the middle, as high as those that
// lead to them are on average.
export function placesOf(graph) {
  const layers = layersOf(graph);
  const behind = Array.from({ length: graph.count }, () => []);
  for (const { from, to } of graph.edges) behind[to].push(from);
  const columns = Array.from({ length: 1 + Math.max(...layers) }, () => []);
  layers.forEach((layer, node) => columns[layer].push(node));
  const places = [];
  columns.forEach((nodes, layer) => {
    const height = (node) => behind[node].reduce((sum, from) => sum + places[from].y, 0) / Math.max(1, behind[node].length);
    const sorted = nodes.map((node) => [height(node), node]).sort(([one, first], [other, second]) => one - other || first - second);
    sorted.forEach(([, node], at) => (places[node] = { x: layer, y: at - (nodes.length - 1) / 2 }));
  });
  return places;
}
