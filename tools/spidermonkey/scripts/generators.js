// Generators that wait in the middle of their work, iterators, promises and asynchronous functions.
function* walk(items, depth) {
  const own = {depth};
  for (const item of items) {
    yield [own, item];
    if (depth) {
      yield* walk(items, depth - 1);
    }
  }
}
async function wait(promise) {
  const value = await promise;
  return {value};
}
var items = Array.from({length: 20}, (_, index) => ({index}));
var waiting = [];
for (let index = 0; index < 10; index++) {
  const generator = walk(items, 3);
  for (let step = 0; step < index; step++) {
    generator.next();
  }
  waiting.push(generator);
}
var promises = items.map((item) => Promise.resolve(item).then((value) => ({value})));
(function () {
  const gray = {generators: [], promises: [], iterator: items.entries()};
  for (let index = 0; index < 10; index++) {
    const generator = walk([{gray: index}, items[index]], 2);
    generator.next();
    gray.generators.push(generator);
    gray.promises.push(wait(new Promise(() => ({index}))), wait(promises[index]));
  }
  return gray;
})();
