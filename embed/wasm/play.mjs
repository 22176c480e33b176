// Plays a session by the WebAssembly module, as `smilplay run` does. The exit number is 0, or 1 where an order was
// refused.
//
// usage: node --experimental-wasm-memory64 play.mjs MODULE < SESSION

import fs from "node:fs";
import { Session, loadEngine } from "../page/tenphsar.js";

const FEED = 10;
const RETURN = 13;
const REFUSED = 2;

// The lines of an input, without their ends.
function* linesOf(input) {
  for (let from = 0; from < input.length; ) {
    const found = input.indexOf(FEED, from);
    const end = found < 0 ? input.length : found;
    const hasReturn = end > from && input[end - 1] === RETURN;
    yield input.subarray(from, hasReturn ? end - 1 : end);
    from = end + 1;
  }
}

const session = new Session(await loadEngine(fs.readFileSync(process.argv[2])));
const answers = [];
for (const line of linesOf(fs.readFileSync(0))) {
  const { code, answer } = session.line(line);
  answers.push(answer);
  if (code === REFUSED) process.exitCode = 1;
}
session.close();
process.stdout.write(Buffer.concat(answers));
