// Look-ups in sorted numbers and in maps.

/** The index of the last of these rising numbers that is at most `limit`, or -1. */
export function lastUpTo(numbers, limit) {
  let low = 0;
  let high = numbers.length;
  while (low < high) {
    const middle = (low + high) >> 1;
    if (numbers[middle] <= limit) low = middle + 1;
    else high = middle;
  }
  return low - 1;
}

/** What the map has under this key, made if it has nothing yet. */
export function entry(map, key, make) {
  if (!map.has(key)) map.set(key, make());
  return map.get(key);
}

export const listAt = (map, key) => entry(map, key, () => []);
