// Proxies and their handlers, revoked ones, and wrappers of objects of another compartment.
var targets = [];
for (let index = 0; index < 30; index++) {
  targets.push({index, before: targets[index - 1]});
}
function observer(target) {
  const seen = [];
  return new Proxy(target, {
    get(object, name) {
      seen.push(name);
      return object[name];
    },
    seen,
  });
}
var kept = targets.map(observer);
var strangers = [foreign(), foreign()];
strangers[0].other = strangers[1];
(function () {
  const gray = {revoked: Proxy.revocable({}, {}), nested: observer(observer({deep: targets[4]})), strangers: []};
  for (let index = 0; index < 10; index++) {
    const stranger = foreign();
    stranger.back = index ? gray.strangers[index - 1] : strangers[0];
    gray.strangers.push(stranger);
  }
  return gray;
})();
