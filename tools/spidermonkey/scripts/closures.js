// Functions that hold what they were made in: some by globals, some by the gray root alone.
function counter(start) {
  let value = start;
  return {next: () => value++, twice: () => [value, value], reset: () => { value = start; }};
}
var counters = [];
for (let index = 0; index < 40; index++) {
  counters.push(counter(index));
}
function chain(length) {
  let held = null;
  for (let index = 0; index < length; index++) {
    const before = held;
    held = () => [before, counters[index % 40], index];
  }
  return held;
}
var kept = chain(30);
[chain(50), counter(7), counters[3]];
