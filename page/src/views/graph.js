// The funding graph after a turn: base, the currencies below it in layers, and the threads.

import { app } from "../app.js";
import { describeStatus } from "../describe.js";
import { clamp, grouped } from "../format.js";
import { listAt } from "../lookup.js";
import { isLive } from "../status.js";

const MOST_THREADS = 200;
const LEND_ROOM = 56; // at the right, for lends

/** Each currency's layer: one below the deepest of its funders. */
function layersOf({ tickets, currencies }) {
  const funders = new Map();
  for (const { issuer, target } of tickets.values()) listAt(funders, target?.currency).push(issuer);
  const layers = new Map([[0, 0]]);
  const layerOf = (currency) => {
    if (layers.has(currency)) return layers.get(currency);
    layers.set(currency, 1); // meanwhile, so that a cycle in a wrong text ends
    layers.set(currency, 1 + Math.max(0, ...(funders.get(currency) ?? []).map(layerOf)));
    return layers.get(currency);
  };
  for (const currency of currencies.keys()) layerOf(currency);
  return layers;
}

/** The most valuable threads, without dead ones that hold no ticket. */
function threadsOf({ threads, tickets }, values) {
  const funded = new Set([...tickets.values()].map(({ target }) => target?.thread));
  const all = [...threads.keys()].filter((number) => threads.get(number).kind !== "dead" || funded.has(number));
  const best = all.sort((a, b) => values.threads.get(b) - values.threads.get(a)).slice(0, MOST_THREADS);
  return { threads: best.sort((a, b) => a - b), left: all.length - best.length };
}

function noteOf(status) {
  if (status.kind === "running") return `on processor ${status.processor}`;
  return status.kind === "waiting" ? `waits for ${app.words.mutex(status.mutex)}` : status.kind;
}

/** Currencies and threads are nodes; tickets are edges or, without a target, loose. */
export function graphOf(turn, width) {
  const { state, values } = app.moment(turn);
  const earlier = turn > 0 ? app.moment(turn - 1).values : values;
  const { threads, left } = threadsOf(state, values);
  const layers = layersOf(state);
  const last = 1 + Math.max(...layers.values());
  const nodes = new Map();
  const add = (key, layer, value, before = 0, more) =>
    nodes.set(key, { layer, value, isChanged: value !== before, ...more });
  for (const [number, name] of state.currencies) {
    const active = values.active.get(number) ?? 0;
    add(`c${number}`, layers.get(number), values.currencies.get(number) ?? 0, earlier.currencies.get(number),
      { name, note: `active ${grouped(active)}`, isIdle: !active });
  }
  for (const number of threads) {
    const status = state.threads.get(number);
    const title = describeStatus(status, app.words);
    add(`t${number}`, last, values.threads.get(number), earlier.threads.get(number),
      { thread: number, name: state.names.get(number), note: noteOf(status), isIdle: !isLive(status), title });
  }
  const graph = { state, values, left, last, nodes, threads, ...edgesOf(state, values, nodes) };
  return place({ ...graph, ...sizesOf(graph, width) });
}

function edgesOf({ tickets, currencies }, values, nodes) {
  const edges = [];
  const loose = [];
  for (const [number, { issuer, target, amount }] of tickets) {
    const from = nodes.get(`c${issuer}`);
    const to = nodes.get(target?.thread !== undefined ? `t${target.thread}` : `c${target?.currency}`);
    if (!target) loose.push(`ticket ${number} (${grouped(amount)} of ${currencies.get(issuer)})`);
    else if (from && to) {
      const above = edges.filter((edge) => edge.to === to).length;
      edges.push({ number, amount, from, to, above, value: values.tickets.get(number) });
    }
  }
  return { edges, loose };
}

function sizesOf({ nodes, last, threads }, width) {
  const inLayer = (_, layer) => [...nodes.values()].filter((node) => node.layer === layer);
  const columns = Array.from({ length: last + 1 }, inLayer);
  const isSmall = threads.length > 14;
  const [tall, gap] = isSmall ? [24, 5] : [40, 14];
  const wide = clamp(100, (width - LEND_ROOM) / (last + 1) - 48, 132);
  const step = Math.max(wide + 48, (width - wide - LEND_ROOM) / last);
  const most = Math.max(...columns.map(({ length }) => length));
  return {
    columns, isSmall, tall, wide, step, width: Math.max(width, last * step + wide + LEND_ROOM),
    height: Math.max(most * (tall + gap) + gap, 330),
  };
}

function place(graph) {
  const sources = new Map();
  for (const { from, to } of graph.edges) listAt(sources, to).push(from);
  for (const [layer, column] of graph.columns.entries()) {
    for (const node of column) {
      const rows = (sources.get(node) ?? []).map(({ row }) => row ?? 0);
      node.order = rows.length ? rows.reduce((sum, row) => sum + row) / rows.length : 1e6;
    }
    column.sort((a, b) => a.order - b.order);
    column.forEach((node, row) => {
      const y = ((row + 0.5) * graph.height) / column.length - graph.tall / 2;
      Object.assign(node, { row, x: layer * graph.step + 1, y });
    });
  }
  return graph;
}
