// Classes with fields of their own, accessors and an heir, and instances that hold each other.
class Node {
  #secret = {of: this};
  static count = 0;
  constructor(left, right) {
    this.left = left;
    this.right = right;
    Node.count++;
  }
  get secret() { return this.#secret; }
}
class Named extends Node {
  constructor(name, left, right) {
    super(left, right);
    this.name = name;
    this[Symbol(name)] = [left, right];
  }
}
function tree(depth) {
  return depth ? new Named(`depth ${depth}`, tree(depth - 1), tree(depth - 1)) : null;
}
var kept = tree(5);
class Other extends Named {}
({tree: tree(6), other: new Other("other", kept, tree(2)), secrets: [kept.secret, tree(2).secret]});
