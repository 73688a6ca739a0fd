// A stand-in for a browser's document, for tests of what is drawn: elements in their order, and
// which of them has the keyboard. It has no style and no layout.

class Node {
  constructor(tag) {
    this.tagName = tag.toUpperCase();
    this.parentNode = null;
    this.childNodes = [];
    this.dataset = {};
    this.attributes = new Map();
    this.listeners = [];
    Object.assign(this, { className: "", hidden: false, value: "", scrollTop: 0, clientHeight: 400,
      scrollHeight: 400, tabIndex: 0 });
    this.classList = {
      contains: name => this.className.split(" ").includes(name),
      toggle: (name, isOn = !this.classList.contains(name)) => {
        const others = this.className.split(" ").filter(it => it && it !== name);
        this.className = [...others, ...(isOn ? [name] : [])].join(" ");
        return isOn;
      },
    };
  }
  get children() {
    return this.childNodes.filter(it => it instanceof Node);
  }
  get lastElementChild() {
    return this.children.at(-1) || null;
  }
  get rows() {
    return this.all().filter(it => it.tagName === "TR");
  }
  get textContent() {
    return this.childNodes.map(it => it instanceof Node ? it.textContent : it).join("");
  }
  set textContent(text) {
    this.replaceChildren(...(text ? [text] : []));
  }
  setAttribute(name, value) {
    this.attributes.set(name, value);
  }
  getAttribute(name) {
    return this.attributes.get(name) ?? null;
  }
  removeAttribute(name) {
    this.attributes.delete(name);
  }
  addEventListener(kind, run) {
    this.listeners.push({ kind, run });
  }
  dispatchEvent(event) {
    for (const { kind, run } of this.listeners) if (kind === event.type) run(event);
  }
  append(...nodes) {
    for (const it of nodes) {
      if (it instanceof Node) {
        it.remove();
        it.parentNode = this;
      }
      this.childNodes.push(it);
    }
  }
  replaceChildren(...nodes) {
    for (const it of this.children) it.remove();
    this.childNodes = [];
    this.append(...nodes);
  }
  replaceWith(node) {
    const { parentNode } = this, { childNodes } = parentNode;
    node.remove();
    childNodes[childNodes.indexOf(this)] = node;
    node.parentNode = parentNode;
    this.parentNode = null;
    this.blur();
  }
  remove() {
    if (this.parentNode)
      this.parentNode.childNodes = this.parentNode.childNodes.filter(it => it !== this);
    this.parentNode = null;
    this.blur();
  }
  /** Where it isn't in the page any more, nothing in it has the keyboard. */
  blur() {
    if (this.contains(document.activeElement)) document.activeElement = document.body;
  }
  focus() {
    document.activeElement = this;
  }
  closest(tag) {
    return this.tagName === tag.toUpperCase() ? this : this.parentNode?.closest(tag) ?? null;
  }
  contains(node) {
    for (let it = node; it; it = it.parentNode) if (it === this) return true;
    return false;
  }
  /** It, and all that is in it. */
  all() {
    return [this, ...this.children.flatMap(it => it.all())];
  }
  /** Those of a class or of a tag, or of one of several: the page's lists ask for no others. */
  querySelectorAll(selector) {
    const isOne = (it, one) => one[0] === "." ? it.classList.contains(one.slice(1))
      : it.tagName === one.toUpperCase();
    return this.all().filter(it => it !== this && selector.split(", ").some(one => isOne(it, one)));
  }
  querySelector(selector) {
    return this.querySelectorAll(selector)[0] || null;
  }
}
const byId = new Map(), body = new Node("body");
globalThis.document = {
  body, activeElement: body,
  createElement: tag => new Node(tag),
  createElementNS: (_, tag) => new Node(tag),
  getElementById(id) {
    if (!byId.has(id)) byId.set(id, new Node("div"));
    return byId.get(id);
  },
};
/** An element by its tag, in the page. */
export function element(tag = "div") {
  const node = new Node(tag);
  body.append(node);
  return node;
}
