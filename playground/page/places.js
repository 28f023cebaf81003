// Places in a text: the verifier counts lines and bytes from 1, the editor counts UTF-16 units from 0.

const LINE = /^(valid|refuted): condition (\d+), (.*) at (\d+):(\d+)$/;
const WORD = /^(?:\w+|[^\w\s])/;

/** The conditions that lines tell, each with its verdict and the place of its check. */
export function conditionsIn(lines) {
  return lines
    .split("\n")
    .map((line) => LINE.exec(line))
    .filter(Boolean)
    .map(([, verdict, number, description, line, column]) => ({
      verdict,
      number: Number(number),
      description,
      place: { line: Number(line), column: Number(column) },
    }));
}

/** The place that a message names, as `at 3:7` or `at offset 12`; null where it names none. */
export function placeIn(message, text) {
  const place = / at (\d+):(\d+)/.exec(message);
  if (place) return { line: Number(place[1]), column: Number(place[2]) };
  const offset = / at offset (\d+)/.exec(message);
  return offset ? placeOfByte(text, Number(offset[1])) : null;
}

function placeOfByte(text, offset) {
  const before = new TextDecoder().decode(new TextEncoder().encode(text).subarray(0, offset));
  const lines = before.split("\n");
  return { line: lines.length, column: new TextEncoder().encode(lines.at(-1)).length + 1 };
}

/** The range of the word that begins at a place, as offsets in the text. */
export function rangeAt(text, { line, column }) {
  const lines = text.split("\n");
  const start = lines.slice(0, line - 1).reduce((sum, each) => sum + each.length + 1, 0);
  const row = lines[line - 1] ?? "";
  const bytes = new TextEncoder().encode(row).subarray(0, column - 1);
  const from = new TextDecoder().decode(bytes).length;
  const word = WORD.exec(row.slice(from));
  return { from: start + from, to: start + from + (word ? word[0].length : 0) };
}
