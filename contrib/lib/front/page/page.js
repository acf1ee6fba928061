"use strict";
// A client of the door: what the world says is shown as text, never as HTML.

const MOST_LINES = 5000;
const MOST_HISTORY = 200;
// (letters of three bytes at most, and the door takes 65,536 bytes)
const MOST_MESSAGE = 20000;
const STAY_AWAY = 4000;
const DELAYS = [1, 2, 4, 8, 15, 30];
const LINK = /https?:\/\/[^\s<>"'`{}|\\^]+/gi;
// what has a password behind its first words
const SECRET = /^(\s*(?:connect\s+\S+\s+|(?:@newpassword|@pcreate|@password)\s[^=]*=)).+$/i;

const at = (name) => document.getElementById(name);
const state = at("state"), again = at("again"), shown = at("shown"), below = at("below");
const enter = at("enter"), player = at("name"), password = at("password"), type = at("type"), line = at("line");

let socket = null, timer = null, failures = 0, isIn = false;
let typed = [], place = 0, draft = "";

// What is shown.

function atEnd() {
  return shown.scrollHeight - shown.scrollTop - shown.clientHeight < 40;
}

function toEnd() {
  shown.scrollTop = shown.scrollHeight;
  below.hidden = true;
}

// The front of an address without the marks that end a sentence, or a bracket that was opened before it.
function addressIn(text) {
  let end = text.replace(/[.,;:!?]+$/, "");
  while (end.endsWith(")") && !end.includes("(")) end = end.slice(0, -1).replace(/[.,;:!?]+$/, "");
  return end.replace(/\]+$/, "");
}

function linked(text) {
  const row = document.createElement("div");
  let from = 0;
  for (const found of text.matchAll(LINK)) {
    const address = addressIn(found[0]);
    if (!/^https?:\/\/[^/]/i.test(address)) continue;
    const link = document.createElement("a");
    link.href = address;
    link.textContent = address;
    link.target = "_blank";
    link.rel = "noopener noreferrer nofollow";
    row.append(text.slice(from, found.index), link);
    from = found.index + address.length;
  }
  row.append(text.slice(from));
  return row;
}

function show(lines, kind) {
  const follow = atEnd();
  const rows = document.createDocumentFragment();
  for (const text of lines.slice(-MOST_LINES)) {
    const row = linked(text);
    if (kind) row.className = kind;
    rows.append(row);
  }
  shown.append(rows);
  while (shown.childElementCount > MOST_LINES) shown.firstElementChild.remove();
  if (follow) toEnd();
  else below.hidden = false;
}

// The link.

function isOpen() {
  return socket !== null && socket.readyState === WebSocket.OPEN;
}

function hear(event) {
  const told = JSON.parse(event.data);
  if (told.lines) {
    if (enter.hidden && !isIn) greet();
    show(told.lines);
  }
  if (told.door) show([told.door], "door");
  if (told.in) {
    isIn = true;
    state.textContent = "in as " + told.in;
    enter.hidden = true;
    line.focus();
  }
}

// The world has greeted.
function greet() {
  failures = 0;
  state.textContent = "at the login screen";
  enter.hidden = false;
}

function connect() {
  clearTimeout(timer);
  timer = null;
  if (socket !== null && socket.readyState <= WebSocket.OPEN) return;
  again.hidden = true;
  isIn = false;
  state.textContent = "connecting";
  const one = new WebSocket(location.href.replace(/^http/, "ws").replace(/[^/]*$/, "link"));
  socket = one;
  one.onmessage = hear;
  one.onclose = (event) => {
    if (socket !== one) return;
    enter.hidden = true;
    again.hidden = false;
    if (event.code === STAY_AWAY) state.textContent = "not connected";
    else wait(DELAYS[Math.min(failures++, DELAYS.length - 1)]);
  };
}

function wait(seconds) {
  state.textContent = "not connected; again in " + seconds + " s";
  // (not all pages at the same moment, behind a restart)
  timer = seconds > 0 ? setTimeout(wait, 900 + 200 * Math.random(), seconds - 1) : setTimeout(connect, 1000 * Math.random());
}

function connectIfWaiting() {
  if (timer !== null && document.visibilityState === "visible") connect();
}

// What is typed.

// Some lines as messages, none of which is longer than the door takes.
function messages(lines) {
  const found = [];
  let size = MOST_MESSAGE;
  for (const one of lines) {
    const text = one.slice(0, MOST_MESSAGE);
    size += text.length + 1;
    if (size > MOST_MESSAGE) {
      found.push([]);
      size = text.length + 1;
    }
    found[found.length - 1].push(text);
  }
  return found.map((part) => part.join("\n"));
}

function send(text) {
  if (!isOpen()) {
    show(["You aren't connected, so nothing was sent."], "door");
    return false;
  }
  const lines = text.split(/\r\n|\r|\n/);
  show(lines.map((one) => "> " + one.replace(SECRET, "$1****")), "own");
  messages(lines).forEach((one) => socket.send(one));
  toEnd();
  return true;
}

function remember(text) {
  place = typed.length;
  draft = "";
  if (text === "" || SECRET.test(text) || text === typed[typed.length - 1]) return;
  typed.push(text);
  if (typed.length > MOST_HISTORY) typed.shift();
  place = typed.length;
}

function recall(step) {
  const to = place + step;
  if (to < 0 || to > typed.length) return;
  if (place === typed.length) draft = line.value;
  place = to;
  line.value = place === typed.length ? draft : typed[place];
  grow();
}

function grow() {
  line.rows = Math.min(line.value.split("\n").length, 8);
}

function submit(event) {
  event.preventDefault();
  const text = line.value;
  if (!send(text)) return;
  remember(text);
  line.value = "";
  grow();
}

function key(event) {
  if (event.isComposing) return;
  const lines = line.value;
  if (event.key === "Enter" && !event.shiftKey) submit(event);
  else if (event.key === "ArrowUp" && !lines.slice(0, line.selectionStart).includes("\n")) {
    recall(-1);
    event.preventDefault();
  } else if (event.key === "ArrowDown" && !lines.slice(line.selectionEnd).includes("\n")) {
    recall(1);
    event.preventDefault();
  } else if (event.key === "PageUp" || event.key === "PageDown") {
    shown.scrollBy(0, (event.key === "PageUp" ? -0.9 : 0.9) * shown.clientHeight);
    event.preventDefault();
  }
}

function comeIn(event) {
  event.preventDefault();
  send("connect " + player.value.trim() + " " + password.value);
}

line.addEventListener("keydown", key);
line.addEventListener("input", grow);
type.addEventListener("submit", submit);
enter.addEventListener("submit", comeIn);
again.addEventListener("click", connect);
below.addEventListener("click", toEnd);
shown.addEventListener("scroll", () => { if (atEnd()) below.hidden = true; });
shown.addEventListener("click", () => { if (matchMedia("(hover: hover)").matches && getSelection().isCollapsed) line.focus(); });
addEventListener("online", connectIfWaiting);
document.addEventListener("visibilitychange", connectIfWaiting);
connect();
