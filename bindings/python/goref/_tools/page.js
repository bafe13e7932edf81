"use strict";
const LETTERS = "ABCDEFGHJKLMNOPQRSTUVWXYZ";
const STEP = 40;
const EDGE = 52;

const by = (id) => document.getElementById(id);
const games = JSON.parse(by("games").textContent);
let game = games[0];
let at = 0;

// An element of SVG in another.
function drawn(parent, name, attributes, text) {
  const element = document.createElementNS("http://www.w3.org/2000/svg", name);
  for (const [key, value] of Object.entries(attributes)) element.setAttribute(key, value);
  if (text !== undefined) element.textContent = text;
  parent.append(element);
  return element;
}

function written(parent, name, text) {
  const element = document.createElement(name);
  element.textContent = text;
  parent.append(element);
  return element;
}

const along = (index) => EDGE + STEP * index;

function pathOfLines() {
  const [first, last] = [along(0), along(game.size - 1)];
  let path = "";
  for (let i = 0; i < game.size; i++) path += `M${first} ${along(i)}H${last}M${along(i)} ${first}V${last}`;
  return path;
}

// The lines, the star points and the coordinates, and an empty group for the stones.
function drawGrid() {
  by("board").replaceChildren();
  if (!game.size) return;
  const width = 2 * EDGE + STEP * (game.size - 1);
  const svg = drawn(by("board"), "svg", { role: "img", id: "picture", viewBox: `0 0 ${width} ${width}` });
  drawn(svg, "title", { id: "picture-title" });
  drawn(svg, "rect", { width, height: width, rx: 6, class: "wood" });
  drawn(svg, "path", { d: pathOfLines(), class: "lines" });
  for (const point of game.stars) drawCircle(svg, point, 5, "star");
  drawLetters(svg, width);
  drawn(svg, "g", { id: "stones" });
}

function drawCircle(parent, point, r, name) {
  const [cx, cy] = [along(point % game.size), along(Math.floor(point / game.size))];
  drawn(parent, "circle", { cx, cy, r, class: name });
}

function drawLetters(svg, width) {
  const group = drawn(svg, "g", { class: "letters", "aria-hidden": "true" });
  const [near, far] = [18, width - 18];
  for (let i = 0; i < game.size; i++) {
    drawn(group, "text", { x: along(i), y: near }, LETTERS[i]);
    drawn(group, "text", { x: along(i), y: far }, LETTERS[i]);
    drawn(group, "text", { x: near, y: along(i) }, game.size - i);
    drawn(group, "text", { x: far, y: along(i) }, game.size - i);
  }
}

// The stones after the first moves: goref told what each move changed.
function stonesAfter(moves) {
  const stones = Array.from(game.start);
  for (const step of game.steps.slice(0, moves)) {
    for (const [point, sign] of Object.entries(step.set)) stones[point] = sign;
  }
  return stones;
}

// How many stones of Black and of White were taken by then.
function takenBy(moves) {
  let taken = [0, 0];
  for (const step of game.steps.slice(0, moves)) if (step.taken) taken = step.taken;
  return taken;
}

function drawStones(stones, step) {
  const group = by("stones");
  group.replaceChildren();
  stones.forEach((sign, point) => {
    if (sign === ".") return;
    drawCircle(group, point, 18.5, sign === "X" ? "black" : "white");
  });
  if (!step || step.at === "pass") return;
  const point = (game.size - Number(step.at.slice(1))) * game.size + LETTERS.indexOf(step.at[0]);
  const sign = { X: "on-black", O: "on-white" }[stones[point]] || "on-none";
  drawCircle(group, point, 9, "mark " + sign);
}

function diagramOf(stones) {
  let text = "";
  for (let row = 0; row < game.size; row++) {
    const signs = stones.slice(row * game.size, (row + 1) * game.size);
    text += String(game.size - row).padStart(2) + " " + signs.join(" ") + "\n";
  }
  return text + "   " + LETTERS.slice(0, game.size).split("").join(" ");
}

// What a step is called, as `move 12 W Q16`.
function nameOf(moves) {
  const step = game.steps[moves - 1];
  return step ? `move ${moves} ${step.by} ${step.at}` : "before the first move";
}

function show(moves) {
  if (!game.size) return;
  at = Math.min(Math.max(moves, 0), game.steps.length);
  const stones = stonesAfter(at);
  const step = game.steps[at - 1];
  drawStones(stones, step);
  const [black, white] = takenBy(at);
  by("black-taken").textContent = black;
  by("white-taken").textContent = white;
  const name = nameOf(at);
  by("now").textContent = `${name} (of ${game.steps.length})`;
  by("picture-title").textContent = `Board: ${name}`;
  by("slider").value = at;
  by("slider").setAttribute("aria-valuetext", name);
  by("diagram").textContent = diagramOf(stones);
  tellComment(game.comments[at]);
  for (const button of by("buttons").children) {
    const forward = button.dataset.to === "last" || Number(button.dataset.by) > 0;
    button.setAttribute("aria-disabled", forward ? at === game.steps.length : at === 0);
  }
}

function tellComment(text) {
  by("comment").textContent = text || "";
  by("comment-head").hidden = !text;
}

function tellGame() {
  by("title").textContent = game.title || document.title;
  by("black").textContent = game.black || "";
  by("white").textContent = game.white || "";
  by("verdict").textContent = game.verdict;
  by("verdict").className = game.refused ? "refused" : "";
  by("facts").replaceChildren();
  for (const [label, text] of game.facts) {
    written(by("facts"), "dt", label);
    const said = written(by("facts"), "dd", text);
    said.dir = "auto";
    said.lang = "";
  }
  by("facts-head").hidden = !game.facts.length;
  by("notes").replaceChildren();
  for (const note of game.notes) written(by("notes"), "p", note);
}

function choose(number) {
  game = games[number];
  tellGame();
  drawGrid();
  for (const id of ["controls", "text"]) by(id).hidden = !game.size;
  by("now").textContent = game.size ? "" : "There is no board.";
  tellComment("");
  if (!game.size) return;
  by("slider").max = game.steps.length;
  show(game.refused ? game.steps.length : 0);
}

function nameOfGame(one) {
  const players = one.black || one.white ? `: ${one.black || "Black"} - ${one.white || "White"}` : "";
  return `${one.number}${players}${one.refused ? " (refused)" : ""}`;
}

const KEYS = { ArrowLeft: -1, ArrowRight: 1, PageUp: -10, PageDown: 10, Home: -Infinity, End: Infinity };

function pressed(event) {
  if (event.ctrlKey || event.altKey || event.metaKey || event.shiftKey || !(event.key in KEYS) || !game.size) return;
  if (event.target.closest("select, input, pre")) return;
  event.preventDefault();
  show(at + KEYS[event.key]);
}

function clicked(event) {
  const button = event.target.closest("button");
  if (!button) return;
  const { to, by: step } = button.dataset;
  show(to === "first" ? 0 : to === "last" ? Infinity : at + Number(step));
}

for (const one of games) written(by("game"), "option", nameOfGame(one));
by("choice").hidden = games.length === 1;
by("game").addEventListener("change", () => choose(by("game").selectedIndex));
by("buttons").addEventListener("click", clicked);
by("slider").addEventListener("input", () => show(Number(by("slider").value)));
document.addEventListener("keydown", pressed);
by("viewer").hidden = false;
choose(0);
