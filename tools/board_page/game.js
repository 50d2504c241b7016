// A game against the tree: the winner is played by `hx play`, and the loser by clicks.

import { button, colourName, fill, joined, make, other } from "./elements.js";
import { moveTold } from "./position.js";

export class Game {
  constructor(page, { winner, tree, answers, over }) {
    Object.assign(this, { page, winner, tree, loser: other[winner], moves: [],
      isOver: over, isWaiting: false, said: "", last: "" });
    if (answers.length) this.put(winner, answers[0]);
    this.said = this.told();
  }

  get position() {
    return this.page.shown.position;
  }

  put(colour, cell) {
    this.page.shown.add(this.position.put(cell, colour).withMover(other[colour]), moveTold(colour, cell));
    this.last = cell;
  }

  told() {
    const won = `${colourName[this.winner]} has joined ${joined[this.winner]} and won.`;
    const does = this.moves.length ? "answers" : "begins with";
    const answered = this.last ? `${colourName[this.winner]} ${does} ${this.last}. ` : "";
    return answered + (this.isOver ? won : `It is your turn, as ${colourName[this.loser]}.`);
  }

  async click(cell) {
    if (this.isOver || this.isWaiting) return;
    if (!this.position.isEmpty(cell)) {
      this.say(`${cell} has a stone.`);
      return;
    }
    this.put(this.loser, cell);
    this.isWaiting = true;
    this.say("");
    const told = await this.page.ask({ question: "play", tree: this.tree, moves: [...this.moves, cell] });
    this.isWaiting = false;
    if (this.page.mode !== this) return; // the game was left
    if (told.phase === "done") this.take(cell, told);
    else this.takeBack(told);
  }

  take(cell, { answers, over }) {
    this.moves.push(cell);
    this.put(this.winner, answers.at(-1));
    this.isOver = over;
    this.say(this.told());
  }

  // No answer came: the move is as if it had not been made.
  takeBack(told) {
    this.page.shown.go(this.page.shown.at - 1);
    this.say(told.why || "No answer came.");
  }

  get hint() {
    return `A click on a cell is your move, as ${colourName[this.loser]}.`;
  }

  canUndo() {
    return this.moves.length > 0 && !this.isWaiting;
  }

  // The last move and its answer.
  undo() {
    if (!this.canUndo()) return;
    this.moves.pop();
    this.isOver = false;
    this.page.shown.go(this.page.shown.at - 2);
    this.last = "";
    this.say(`It is your turn, as ${colourName[this.loser]}.`);
  }

  say(words) {
    this.said = words;
    this.page.render();
  }

  marks() {
    return { last: this.last };
  }

  shown() {
    fill("panel",
      make("h2", [`A game against ${colourName[this.winner]}`]),
      make("p", [`${colourName[this.winner]} plays by a tree that was accepted, so he wins whatever you play.`]),
      make("p", [this.said], { id: "game-said", role: "status" }),
      make("p", [
        button("Take back", () => this.undo(), { disabled: !this.canUndo() }),
        button("End the game", () => this.page.enter(null)),
      ], { className: "row" }));
  }

  leave() {
    fill("panel");
  }
}
