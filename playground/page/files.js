// Files that come from the reader's disk and go there.

/** Offers a text to be saved under a name. */
export function offer(name, text) {
  const link = document.createElement("a");
  link.href = URL.createObjectURL(new Blob([text], { type: "text/plain" }));
  link.download = name;
  link.click();
  setTimeout(() => URL.revokeObjectURL(link.href));
}

/** Hands on the bytes of the file that is dropped on an element or chosen by its input. */
export function receive(zone, input, taken) {
  const take = async (file) => file && taken(file.name, new Uint8Array(await file.arrayBuffer()));
  const shade = (isOver) => (event) => {
    event.preventDefault();
    zone.classList.toggle("over", isOver);
  };
  zone.addEventListener("dragover", shade(true));
  zone.addEventListener("dragleave", shade(false));
  zone.addEventListener("drop", (event) => {
    shade(false)(event);
    take(event.dataTransfer.files[0]);
  });
  input.addEventListener("change", () => {
    take(input.files[0]);
    input.value = "";
  });
}
