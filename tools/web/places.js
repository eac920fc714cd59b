// Locations and numbers of one owner. A scene is what is drawn: the state, the one before, what changed, and what is taken now.
function cardsAt(at, scene) {
  const isNew = (spot) => scene.change.arrived[at].has(spot);
  const cards = scene.state.places[at].map((place, spot) => ({ place, face: seenBy(place), isNew: isNew(spot) }));
  if (isSorted(at) && cards.every((it) => it.face !== null)) cards.sort((a, b) => (sortKey(a.face) < sortKey(b.face) ? -1 : 1));
  return cards;
}
const isHand = (at) => match.locations[at][1] === "iloc";
const isSorted = (at) => isHand(at) && view.sort;
function bodyHtml(at, cards, runs, scene, width) {
  const marks = marker(at, runs, scene.taken);
  if (match.locations[at][1] === "mem") {
    if (!cards.length) return '<div class="empty"></div>';
    return `<div class="many">${runs.map((run, number) => mini(run.face, `note ${marks(run, number)}`)).join("")}</div>`;
  }
  if (!cards.length) return '<div class="cards"><div class="empty"></div></div>';
  if (runs.length > 1 && runs.length * 15 > width) return manyHtml(runs, marks, isSorted(at));
  const item = (run, number) => {
    if (run.face === null) return backsHtml(run, isHand(at) && runs.length === 1 && run.count > 1 && run.count <= 30);
    const isPeeked = view.as === ALL && run.place[1] !== usual[at];
    return `<li>${cardHtml(run.face, marks(run, number), isPeeked ? run.place[1] : undefined)}</li>`;
  };
  return `<ul class="cards">${runs.map(item).join("")}</ul>`;
}
function locationHtml(at, scene, width) {
  const [name, kind] = match.locations[at];
  const [eye, says] = KINDS[kind];
  const cards = cardsAt(at, scene);
  const runs = runsOf(cards);
  const grown = cards.length - scene.old.places[at].length;
  const isCounted = cards.length > 1 || cards.some((it) => it.face === null);
  const count = isCounted ? `<span class="count">${cards.length}</span>` : "";
  const isGrown = grown !== 0 && kind !== "mem";
  const plus = isGrown ? `<span class="change">${grown > 0 ? "+" : "−"}${Math.abs(grown)}</span>` : "";
  const wide = runs.length > 1 || (isHand(at) && cards.length > 1) ? cards.length : 1;
  const label = name.length + (cards.length > 1 ? 3 : 0) + (isGrown ? 3 : 0);
  const said = escaped(`${placeName(at)}, ${says}: ${cards.length} ${cards.length === 1 ? "card" : "cards"}`);
  const head = `<h3 title="${says}">${eye}${escaped(name)} ${count}${plus}</h3>`;
  const style = `class="location ${kind === "mem" ? "note" : ""}" style="--cards:${wide};--label:${label}"`;
  return `<section ${style} aria-label="${said}">${head}${bodyHtml(at, cards, runs, scene, width)}</section>`;
}
function numberHtml(at, scene) {
  const value = scene.state.numbers[at];
  const isChanged = scene.change.numbers.has(at);
  const told = isChanged ? `${scene.old.numbers[at]} → ${value}` : value;
  const style = `${isChanged ? "changed" : ""} ${value === 0 ? "zero" : ""}`;
  return `<span class="number ${style}">${escaped(match.numbers[at][0])} <b>${told}</b></span>`;
}
function numbersHtml(holder, scene) {
  const own = match.numbers.map((_, at) => at).filter((at) => match.numbers[at][2] === holder);
  return own.length ? `<div class="numbers">${own.map((at) => numberHtml(at, scene)).join("")}</div>` : "";
}

// Locations of one owner and one kind whose names differ in a number behind them stand side by side as columns.
function grouped(places) {
  const kind = (at) => match.locations[at][1];
  const stem = (at) => (kind(at) === "mem" ? "" : /^(.*\D)\d+$/.exec(match.locations[at][0])?.[1] || "");
  const groups = [];
  for (const at of places) {
    const last = groups.at(-1);
    if (last && stem(at) && stem(at) === stem(last[0]) && kind(at) === kind(last[0])) last.push(at);
    else groups.push([at]);
  }
  return groups;
}
function placesHtml(places, scene, width) {
  const drawn = (group) => {
    const isSeries = group.length > 2;
    const html = group.map((at) => locationHtml(at, scene, isSeries ? Infinity : width)).join("");
    return isSeries ? `<div class="series">${html}</div>` : html;
  };
  return `<div class="locations">${grouped(places).map(drawn).join("")}</div>`;
}

// The locations of an owner that ever have a card, and the names of those that don't.
const held = (holder) => match.locations.map((_, at) => at).filter((at) => match.locations[at][2] === holder);
const used = (holder) => held(holder).filter((at) => most[at] > 0);
function unusedHtml(holders) {
  const names = holders.flatMap(held).filter((at) => most[at] === 0).map((at) => match.locations[at][0]);
  return names.length ? `<p class="unused">always empty: ${escaped(names.join(", "))}</p>` : "";
}
