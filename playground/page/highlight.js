// Colours of a program text.

const TOKEN = /(?<comment>\/\/[^\n]*)|(?<word>[A-Za-z_]\w*)/g;
const WORDS = new Map([
  ...["struct", "var", "procedure", "returns"].map((word) => [word, "declaration"]),
  ...["requires", "ensures", "invariant"].map((word) => [word, "contract"]),
  ...["if", "else", "while", "return", "new", "free"].map((word) => [word, "statement"]),
  ...["emp", "acc", "lseg"].map((word) => [word, "assertion"]),
  ...["null", "Node"].map((word) => [word, "constant"]),
]);

function kindOf({ comment, word }) {
  return comment ? "comment" : (WORDS.get(word) ?? "");
}

/** The pieces of a text with their kinds; what has no colour has the empty kind. */
export function pieces(text) {
  const found = [];
  let end = 0;
  for (const match of text.matchAll(TOKEN)) {
    if (match.index > end) found.push({ kind: "", from: end, to: match.index });
    end = match.index + match[0].length;
    found.push({ kind: kindOf(match.groups), from: match.index, to: end });
  }
  if (end < text.length) found.push({ kind: "", from: end, to: text.length });
  return found;
}

/** The pieces cut at the ends of marks: { from, to, kind, mark }. Marks are in order and don't overlap. */
export function markedPieces(text, marks) {
  const cuts = [...new Set(marks.flatMap(({ from, to }) => [from, to]))].sort((a, b) => a - b);
  return pieces(text).flatMap((piece) => cutAt(piece, cuts)).map((piece) => ({ ...piece, mark: markOf(piece, marks) }));
}

function cutAt(piece, cuts) {
  const inner = cuts.filter((cut) => cut > piece.from && cut < piece.to);
  const ends = [piece.from, ...inner, piece.to];
  return ends.slice(1).map((to, k) => ({ ...piece, from: ends[k], to }));
}

function markOf({ from, to }, marks) {
  return marks.find((mark) => mark.from <= from && to <= mark.to)?.kind ?? "";
}
