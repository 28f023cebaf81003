// Runs in a worker. Requests come as { id, kind, .. }, and each ends with a message { id, kind: "done" | "failed", .. }.
// Between the pieces of a run other requests are served.
import { Verifier } from "./verifier.js";

const PIECE_MS = 40;
let verifier = null;

const SERVED = {
  start: ({ module, most }) => {
    verifier = new Verifier(module, most);
  },
  run,
  shown: ({ text, number }) => splitAtPicture(verifier.shown(text, number)),
  log: ({ text }) => verifier.answer("log", text),
  recheck: ({ text, log }) => verifier.answer("recheck", text, log),
};

self.addEventListener("message", async ({ data }) => {
  try {
    const reply = await SERVED[data.kind](data);
    self.postMessage({ id: data.id, kind: "done", reply });
  } catch (error) {
    self.postMessage({ id: data.id, kind: "failed", reason: error.message });
  }
});

// Tells how many conditions there are, each piece of them as it is settled, and in the end what `grass check` answers.
async function run({ id, text }) {
  const say = (kind, told) => self.postMessage({ id, kind, ...told });
  const first = verifier.conditions(text, 0, 0);
  if (first.status !== 0) return { ...verifier.answer("check", text), cause: first.text };
  say("counted", { count: first.count });
  let most = 1;
  for (let skip = 0; skip < first.count; ) {
    const begun = performance.now();
    const { text: lines } = verifier.conditions(text, skip, most);
    say("settled", { lines });
    skip += most;
    most = nextPiece(most, performance.now() - begun);
    await others();
  }
  return verifier.answer("check", text);
}

// Pieces grow while they are quick, so that few calls read the text anew.
function nextPiece(most, ms) {
  return ms * 2 < PIECE_MS ? most * 2 : ms > PIECE_MS && most > 1 ? most >> 1 : most;
}

function others() {
  return new Promise((resolve) => setTimeout(resolve));
}

function splitAtPicture({ status, text }) {
  const at = text.indexOf("<");
  return at < 0 ? { status, story: text, picture: "" } : { status, story: text.slice(0, at), picture: text.slice(at) };
}
