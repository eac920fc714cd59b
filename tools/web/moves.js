// What moved between two decisions, as one view sees it.
function difference(old, now) {
  const arrived = match.locations.map(() => new Set());
  const left = [];
  const came = [];
  match.locations.forEach(([, kind], at) => {
    if (old.places[at] === now.places[at]) return;
    const change = changeOf(old.places[at].map(seenBy), now.places[at].map(seenBy));
    const isNote = kind === "mem";
    change.came.forEach((spot) => arrived[at].add(spot));
    came.push(...change.came.map((spot) => ({ at, face: seenBy(now.places[at][spot]), isNote })));
    left.push(...change.left.map((face) => ({ at, face, isNote })));
  });
  const numbers = new Set(match.numbers.map((_, at) => at).filter((at) => old.numbers[at] !== now.numbers[at]));
  return { arrived, moves: paired(left, came, unseenIn(old), unseenIn(now)), numbers };
}

// The cards of a location that came, by where they are from top to bottom, and those that left, by their faces. What is equal at
// the bottom and on top stayed.
function changeOf(before, behind) {
  const least = Math.min(before.length, behind.length);
  let low = 0;
  while (low < least && before[low] === behind[low]) low++;
  let high = 0;
  while (high < least - low && before.at(-1 - high) === behind.at(-1 - high)) high++;
  const bag = new Map();
  for (const face of before.slice(low, before.length - high)) bag.set(face, (bag.get(face) || 0) + 1);
  const came = [];
  for (let spot = behind.length - high - 1; spot >= low; spot--) {
    const face = behind[spot];
    if (bag.get(face)) bag.set(face, bag.get(face) - 1);
    else came.push(spot);
  }
  return { came, left: [...bag].flatMap(([face, count]) => Array(count).fill(face)) };
}

// The locations that have unseen cards.
function unseenIn(state) {
  const hides = (at) => match.locations[at][1] !== "mem" && state.places[at].some((place) => !isSeen(place));
  return match.locations.map((_, at) => at).filter(hides);
}

// Moves of cards, those of one way together.
class Moves {
  list = [];
  add(face, from, to) {
    const same = this.list.find((it) => it.from === from && it.to === to);
    if (same) same.faces.push(face);
    else this.list.push({ faces: [face], from, to });
  }
}
function takeFirst(list, test) {
  const at = list.findIndex(test);
  return at < 0 ? null : list.splice(at, 1)[0];
}

// Which card that left is which that came. A face that is seen at both places tells it. One that is seen at one of them alone can
// come from, or go to, places with unseen cards: that is known where there is one such place. Unseen cards are counted.
function paired(left, came, unseenBefore, unseenBehind) {
  const moves = new Moves();
  const only = (list, else_) => (list.length === 1 ? list[0] : else_);
  const cards = (list, isOpen) => list.filter((it) => !it.isNote && (it.face !== null) === isOpen);
  left.filter((it) => it.isNote).forEach((it) => moves.add(it.face, it.at, "forgotten"));
  came.filter((it) => it.isNote).forEach((it) => moves.add(it.face, "noted", it.at));
  const hidden = { left: cards(left, false), came: cards(came, false) };
  const open = cards(came, true).reverse();
  for (const it of cards(left, true)) {
    const found = takeFirst(open, (other) => other.face === it.face);
    const to = found ? found.at : only(unseenBehind, "gone");
    if (!found) takeFirst(hidden.came, (other) => other.at === to);
    moves.add(it.face, it.at, to);
  }
  for (const it of open) {
    const from = only(unseenBefore, "came");
    takeFirst(hidden.left, (other) => other.at === from);
    moves.add(it.face, from, it.at);
  }
  pairHidden(moves, hidden);
  return moves.list;
}

// Unseen cards went from one place to another where these are the only ones and as many came as left.
function pairHidden(moves, { left, came }) {
  const places = (list) => [...new Set(list.map((it) => it.at))];
  const [from, to] = [places(left), places(came)];
  if (from.length === 1 && to.length === 1 && left.length === came.length) {
    left.forEach(() => moves.add(null, from[0], to[0]));
    return;
  }
  left.forEach((it) => moves.add(null, it.at, "gone"));
  came.forEach((it) => moves.add(null, "came", it.at));
}

const WAYS = { noted: "noted in", came: "came to", forgotten: "no longer noted in", gone: "left" };
function wayHtml(from, to) {
  const name = (at) => escaped(placeName(at));
  if (WAYS[from]) return `<span>${WAYS[from]} ${name(to)}</span>`;
  if (WAYS[to]) return `<span>${WAYS[to]} ${name(from)}</span>`;
  return `<span>${name(from)}</span><span class="arrow" aria-label="to">→</span><span>${name(to)}</span>`;
}
function moveHtml({ faces, from, to }) {
  const open = faces.filter((it) => it !== null);
  const hidden = faces.length - open.length;
  const more = open.length > 10 ? ` and ${open.length - 10} more` : "";
  const cards = open.slice(0, 10).map((it) => mini(it)).join("") + more;
  const backs = hidden ? `${open.length ? "and " : ""}${hidden} face-down ${hidden === 1 ? "card" : "cards"}` : "";
  return `<li>${cards}${backs} ${wayHtml(from, to)}</li>`;
}
