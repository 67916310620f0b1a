/**
 * Where the nodes of the graph stand: users with their sessions at the left, roles in layers from senior to junior, permissions at the right.
 * A line that passes a column has a place of its own there, so that it runs behind no node. It takes time of the order of n log n for n nodes and
 * places of lines.
 * @module layout
 */

/**
 * @typedef {object} GraphNode
 * @property {string} key kind and name
 * @property {string} kind
 * @property {string} name
 * @property {string} label
 * @property {number} column
 * @property {number} x
 * @property {number} y
 * @property {number} width
 * @property {number} height
 *
 * @typedef {object} GraphEdge
 * @property {string} from
 * @property {string} to
 * @property {string} kind
 * @property {GraphNode[]} [way] through which places it goes, its ends among them
 */

export const HEIGHT = 26;
const BETWEEN = 10;
const GAP = 64;
const MARGIN = 14;
const SESSION_INDENT = 16;
const SWEEPS = 4;
/** The height of a line's place in a column. */
const PLACE = 4;

const pen = document.createElement('canvas').getContext('2d');

/** @param {string} text */
function widthOf(text) {
  pen.font = '13px system-ui, sans-serif';
  return Math.ceil(pen.measureText(text).width) + 24;
}

/**
 * The layer of each role: how many declared pairs lead down to it at most, of those drawn.
 * @param {string[]} roles
 * @param {GraphEdge[]} pairs
 * @returns {Map<string, number>}
 */
export function layers(roles, pairs) {
  const layer = new Map(roles.map((key) => [key, 0]));
  const open = new Map(roles.map((key) => [key, 0]));
  const below = new Map(roles.map((key) => [key, []]));
  for (const { from, to } of pairs) {
    below.get(from).push(to);
    open.set(to, open.get(to) + 1);
  }
  const ready = roles.filter((key) => open.get(key) === 0);
  for (let next = 0; next < ready.length; next += 1) {
    for (const junior of below.get(ready[next])) {
      layer.set(junior, Math.max(layer.get(junior), layer.get(ready[next]) + 1));
      open.set(junior, open.get(junior) - 1);
      if (open.get(junior) === 0) {
        ready.push(junior);
      }
    }
  }
  return layer;
}

/**
 * Places nodes, and gives the size of the drawing.
 * @param {GraphNode[]} nodes
 * @param {GraphEdge[]} edges
 */
export function place(nodes, edges) {
  const roles = nodes.filter((node) => node.kind === 'role').map((node) => node.key);
  const layer = layers(roles, edges.filter((edge) => edge.kind === 'inherits'));
  const last = Math.max(0, ...layer.values()) + 1;
  for (const node of nodes) {
    node.height = HEIGHT;
    node.width = widthOf(node.label);
    node.column = columnOf(node, layer, last);
  }
  const { places, steps } = ways(nodes, edges);
  const all = [...nodes, ...places];
  const columns = Array.from({ length: last + 2 }, () => []);
  all.forEach((node) => columns[node.column].push(node));
  order(columns, all, steps);
  return spread(columns);
}

/** The places of lines in the columns that they pass, and each line's steps from one to the next. */
function ways(nodes, edges) {
  const at = new Map(nodes.map((node) => [node.key, node]));
  const places = [];
  const steps = [];
  for (const edge of edges) {
    const [from, to] = [at.get(edge.from), at.get(edge.to)];
    edge.way = [from];
    for (let column = from.column + 1; column < to.column; column += 1) {
      const key = `${edge.from}>${edge.to}@${column}`;
      const passed = { key, kind: 'place', name: '', label: '', column, x: 0, y: 0, width: 0, height: PLACE };
      places.push(passed);
      edge.way.push(passed);
    }
    edge.way.push(to);
    edge.way.slice(1).forEach((node, before) => steps.push({ from: edge.way[before].key, to: node.key, kind: edge.kind }));
  }
  return { places, steps };
}

function columnOf(node, layer, last) {
  if (node.kind === 'role') {
    return layer.get(node.key) + 1;
  }
  return node.kind === 'permission' ? last + 1 : 0;
}

/** Orders each column by where its neighbours stand, so that few lines cross. Sessions stay behind their users. */
function order(columns, nodes, edges) {
  const at = new Map(nodes.map((node) => [node.key, node]));
  const beside = new Map(nodes.map((node) => [node.key, []]));
  for (const { from, to } of edges) {
    beside.get(from).push(at.get(to));
    beside.get(to).push(at.get(from));
  }
  columns.forEach((column) => column.forEach((node, place) => { node.y = place / column.length; }));
  for (let sweep = 0; sweep < SWEEPS; sweep += 1) {
    for (const column of sweep % 2 ? columns : [...columns].reverse()) {
      const mean = new Map(column.map((node) => [node, meanOf(node, beside.get(node.key))]));
      const group = (node) => (node.owner ? mean.get(at.get(node.owner)) ?? mean.get(node) : mean.get(node));
      const belongs = (node) => node.owner ?? node.key;
      column.sort((a, b) =>
        group(a) - group(b) || (belongs(a) < belongs(b) ? -1 : belongs(a) > belongs(b) ? 1 : 0)
          || Number(Boolean(a.owner)) - Number(Boolean(b.owner)) || mean.get(a) - mean.get(b));
      column.forEach((node, place) => { node.y = place / column.length; });
    }
  }
}

function meanOf(node, beside) {
  const others = beside.filter((other) => other.column !== node.column);
  if (others.length === 0) {
    return node.y;
  }
  return others.reduce((sum, other) => sum + other.y, 0) / others.length;
}

/** Sets the places of ordered columns. */
function spread(columns) {
  const heights = columns.map((column) => column.reduce((sum, node) => sum + node.height + BETWEEN, 0));
  const height = Math.max(HEIGHT, ...heights) + 2 * MARGIN;
  let x = MARGIN;
  columns.forEach((column, number) => {
    if (column.length === 0) {
      return;
    }
    let y = (height - heights[number] + BETWEEN) / 2;
    let widest = 0;
    for (const node of column) {
      node.x = x + (node.owner ? SESSION_INDENT : 0);
      node.y = y;
      y += node.height + BETWEEN;
      widest = Math.max(widest, node.width + node.x - x);
    }
    column.filter((node) => node.kind === 'place').forEach((node) => { node.width = widest; });
    x += widest + GAP;
  });
  return { width: Math.max(x - GAP, 0) + MARGIN, height };
}
