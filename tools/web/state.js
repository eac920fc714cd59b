"use strict";
// A fault of this script is noted on the page, where tests find it.
addEventListener("error", (event) => (document.body.dataset.fault = event.message));
const match = JSON.parse(document.getElementById("data").textContent);
const element = (id) => document.getElementById(id);
const ENTITIES = { "&": "&amp;", "<": "&lt;", ">": "&gt;", '"': "&quot;" };
const escaped = (text) => String(text).replace(/[&<>"]/g, (sign) => ENTITIES[sign]);
const ALL = "all";
const isCheck = location.hash === "#check";
const isWhole = match.views.length === match.players;

// Who sees the faces of a location by its kind, as a mask of seats.
const everybody = match.views.reduce((mask, seat) => mask | (1 << seat), 0);
const usual = match.locations.map(([, kind, holder]) => {
  if (kind === "vloc" || kind === "mem") return everybody;
  if (kind !== "iloc" || holder === "g") return 0;
  const number = Number(holder.slice(1));
  const seats = holder[0] === "p" || !match.teams.length ? [number] : match.teams[number];
  return seats.reduce((mask, seat) => mask | (1 << seat), 0) & everybody;
});

// The cards of an edit: each is null where nobody sees it, else a face and the mask of who does.
function cardsOf(told, mask) {
  return told.flatMap((it) => {
    if (Array.isArray(it)) return [it];
    return it >= 0 ? [[it, mask]] : Array(-it).fill(null);
  });
}

// The table at each stop.
function tables() {
  let places = match.locations.map(() => []);
  let numbers = match.numbers.map(() => 0);
  return match.stops.map((stop) => {
    places = places.slice();
    numbers = numbers.slice();
    for (const [at, low, high, middle] of stop.places) {
      const old = places[at];
      places[at] = [...old.slice(0, low), ...cardsOf(middle, usual[at]), ...old.slice(old.length - high)];
    }
    for (const [at, value] of stop.numbers) numbers[at] = value;
    return { places, numbers };
  });
}
const states = tables();
const most = match.locations.map((_, at) => Math.max(0, ...states.map((it) => it.places[at].length)));
const shown = Math.min(match.decisions, match.stops.length);
const LAST = shown;
const view = { step: 0, as: isWhole ? ALL : match.views[0], sort: true, speed: 1, timer: 0, noting: 0 };

const isSeen = (place) => place !== null && (view.as === ALL || (place[1] >> view.as) & 1);
const seenBy = (place) => (isSeen(place) ? place[0] : null);
const stateOf = (step) => Math.min(step, states.length - 1);
const isEnd = () => view.step === LAST;
const knows = (seat) => view.as === ALL || view.as === seat;
