// Elements of the page. What is written into them is always text.

export const byId = (id) => document.getElementById(id);

export function make(name, held = [], properties = {}) {
  const element = Object.assign(document.createElement(name), properties);
  element.append(...held);
  return element;
}

export function button(words, onclick, properties = {}) {
  return make("button", [words], { type: "button", onclick, ...properties });
}

// Shows some texts and elements in the place of what was there.
export function fill(id, ...held) {
  byId(id).replaceChildren(...held);
  byId(id).hidden = held.length === 0;
}

export const colourName = { black: "Black", white: "White" };
export const other = { black: "white", white: "black" };
export const joined = { black: "the top with the bottom", white: "the left with the right" };
export const counted = (count, word) => `${count} ${word}${count === 1 ? "" : "s"}`;
export const spelled = (number) => number.toLocaleString("en");
