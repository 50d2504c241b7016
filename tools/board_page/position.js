// Positions, which do not change, and the list of those that were shown.

import { colourName, other } from "./elements.js";

export const LETTERS = "abcdefghijk";
export const MOST = LETTERS.length;
const COLOURS = { b: "black", w: "white" };
const LINK = /^#?(\d{1,2})x(\d{1,2});(black|white);([.bw/]+)$/;

// The names of a board's cells, row by row.
export function namesOf(rows, columns) {
  return Array.from({ length: rows * columns },
    (_, place) => LETTERS[place % columns] + (Math.floor(place / columns) + 1));
}

export class Position {
  constructor(rows, columns, stones = new Map(), mover = "black") {
    Object.assign(this, { rows, columns, stones, mover });
  }

  // What a server tells of a position, or of a template, which has no mover.
  static from({ rows, columns, black, white, mover = "black" }) {
    return new Position(rows, columns,
      new Map([...black.map((cell) => [cell, "black"]), ...white.map((cell) => [cell, "white"])]), mover);
  }

  get cells() {
    return namesOf(this.rows, this.columns);
  }

  of(colour) {
    return this.cells.filter((cell) => this.stones.get(cell) === colour);
  }

  isEmpty(cell) {
    return !this.stones.has(cell);
  }

  put(cell, colour) {
    return new Position(this.rows, this.columns, new Map(this.stones).set(cell, colour), this.mover);
  }

  take(cell) {
    const stones = new Map(this.stones);
    stones.delete(cell);
    return new Position(this.rows, this.columns, stones, this.mover);
  }

  withMover(mover) {
    return new Position(this.rows, this.columns, this.stones, mover);
  }

  // The mover's stone on a cell; then the other player is to move.
  play(cell) {
    return this.put(cell, this.mover).withMover(other[this.mover]);
  }

  // As the server is asked about it.
  asked() {
    return { rows: this.rows, columns: this.columns, black: this.of("black"),
      white: this.of("white"), mover: this.mover };
  }

  // What stands behind the # of an address: the size, who is to move, and the rows.
  link() {
    const letters = this.cells.map((cell) => (this.stones.get(cell) || ".")[0]).join("");
    const rows = Array.from({ length: this.rows },
      (_, row) => letters.slice(row * this.columns, (row + 1) * this.columns));
    return `#${this.rows}x${this.columns};${this.mover};${rows.join("/")}`;
  }

  // The position of a link, or nothing where it is none.
  static ofLink(link) {
    const [, rows, columns, mover, drawn] = (link.match(LINK) || []);
    const lines = (drawn || "").split("/");
    const isRight = drawn && rows >= 1 && rows <= MOST && columns >= 1 && columns <= MOST
      && lines.length === Number(rows) && lines.every((line) => line.length === Number(columns));
    if (!isRight) return null;
    const names = namesOf(Number(rows), Number(columns));
    const stones = [...lines.join("")].map((letter, place) => [names[place], COLOURS[letter]]);
    return new Position(Number(rows), Number(columns), new Map(stones.filter(([, colour]) => colour)), mover);
  }

  isSame(position) {
    return this.link() === position.link();
  }
}

// The positions that were shown, each with what led to it.
export class Shown {
  constructor(position, told) {
    this.entries = [{ position, told }];
    this.at = 0;
  }

  get position() {
    return this.entries[this.at].position;
  }

  // What was undone is dropped.
  add(position, told) {
    this.entries.splice(this.at + 1, Infinity, { position, told });
    this.at += 1;
  }

  canGo(at) {
    return at >= 0 && at < this.entries.length;
  }

  go(at) {
    if (this.canGo(at)) this.at = at;
  }
}

export const moveTold = (colour, cell) => `${colourName[colour]} ${cell}`;
