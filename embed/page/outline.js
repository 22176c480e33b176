// What stands in a document, as the engine tells it by the order `save`.

const NODE = /^( *)(\w+) #([0-9]+)(.*)$/;
const ATTRIBUTE = /(\w+)="([^"]*)"/g;

// The nodes of a saved outline, in its order: the serial, the name under which the engine tells of it, the kind, the
// depth, 0 for the root, and the attributes.
export function nodesOf(saved) {
  const found = saved.split("\n").map((line) => NODE.exec(line)).filter(Boolean);
  return found.map(([, spaces, kind, serial, rest]) => {
    const attributes = Object.fromEntries([...rest.matchAll(ATTRIBUTE)].map(([, name, value]) => [name, value]));
    return { serial, name: attributes.id ?? `#${serial}`, kind, depth: spaces.length / 2, attributes };
  });
}
