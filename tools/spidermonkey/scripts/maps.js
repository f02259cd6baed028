// Maps, sets and weak maps: black and gray maps with black and gray keys, and keys that are wrappers.
var keys = [];
for (let index = 0; index < 30; index++) {
  keys.push({index});
}
var map = new Map(keys.map((key) => [key, {of: key}]));
var set = new Set(keys);
var weak = new WeakMap();
keys.forEach((key, index) => weak.set(key, {value: index, next: keys[index + 1]}));
var self = new WeakMap();
self.set(self, {own: true});
var stranger = foreign();
weak.set(stranger, {of: "a key that is a wrapper"});
(function () {
  const gray = {keys: [], weak: new WeakMap(), map: new Map(), strangers: []};
  for (let index = 0; index < 20; index++) {
    const key = {gray: index};
    gray.keys.push(key);
    gray.weak.set(key, {value: index});
    gray.weak.set(keys[index], {black: index});
    weak.set(key, {in: "a black map"});
    gray.map.set(key, keys[index]);
  }
  for (let index = 0; index < 5; index++) {
    const key = foreign();
    gray.strangers.push(key);
    gray.weak.set(key, {stranger: index});
    weak.set(key, {stranger: index});
  }
  let key = {};
  gray.first = key;
  for (let index = 0; index < 15; index++) {
    const value = {chain: index};
    gray.weak.set(key, value);
    key = value;
  }
  return gray;
})();
