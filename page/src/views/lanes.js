// The timeline's lanes, of processors and of threads, with their spans and places.

export const LEFT = 118;
export const RIGHT = 14;
export const AXIS = 40;

const heightOf = (count) => (count > 40 ? 13 : count > 16 ? 17 : 25);

export function lanesOf({ model, input: { numbers: { processors } } }) {
  const threads = [...model.threads.values()].sort((a, b) => a.number - b.number);
  const running = threads.flatMap(({ spans }) => spans.filter(({ status }) => status.kind === "running"));
  running.sort((a, b) => a.turn - b.turn);
  const lanes = [];
  let top = AXIS;
  const add = (kind, number, height, spans) => {
    const [starts, turns] = [spans.map(({ from }) => from), spans.map(({ turn }) => turn)];
    lanes.push({ kind, number, top, height, spans, starts, turns });
    top += height + 3;
  };
  for (let number = 1; number <= processors; number++) {
    const spans = running.filter(({ status }) => status.processor === number);
    add("processor", number, processors > 16 ? 13 : 27, spans);
  }
  top += 10;
  for (const { number, spans } of threads) add("thread", number, heightOf(threads.length), spans);
  const ofThread = new Map(lanes.slice(processors).map((lane) => [lane.number, lane]));
  return { lanes, ofThread, height: top + 6 };
}
