// The board as a picture of its own: SVG, and PNG that the browser makes of it.

const SCALE = 2; // of a PNG
const PAINTED = ["board.css", "marks.css"];

async function styles() {
  return (await Promise.all(PAINTED.map(async (name) => (await fetch(name)).text()))).join("");
}

// The text of the picture, which needs no other file.
export async function svgOf(svg) {
  const copy = svg.cloneNode(true);
  copy.querySelector(".ring").remove();
  copy.removeAttribute("style"); // how large it may be on the page
  copy.setAttribute("role", "img");
  copy.setAttribute("aria-label", "the board");
  for (const cell of copy.querySelectorAll("[data-cell]")) {
    for (const name of ["role", "tabindex", "aria-label"]) cell.removeAttribute(name);
  }
  const style = document.createElementNS(copy.namespaceURI, "style");
  style.textContent = await styles();
  copy.prepend(style);
  return new XMLSerializer().serializeToString(copy);
}

export async function pngOf(svg) {
  const image = new Image();
  image.src = `data:image/svg+xml;charset=utf-8,${encodeURIComponent(await svgOf(svg))}`;
  await image.decode();
  const canvas = document.createElement("canvas");
  [canvas.width, canvas.height] = [SCALE * image.naturalWidth, SCALE * image.naturalHeight];
  canvas.getContext("2d").drawImage(image, 0, 0, canvas.width, canvas.height);
  return new Promise((done) => canvas.toBlob(done, "image/png"));
}

// Hands a file to whoever sits at the browser.
export function save(blob, name) {
  const link = document.createElement("a");
  link.href = URL.createObjectURL(blob);
  link.download = name;
  document.body.append(link);
  link.click();
  link.remove();
  setTimeout(() => URL.revokeObjectURL(link.href), 10000);
}
