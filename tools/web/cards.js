// Cards, and those of one place beside each other.
const EYE = "M1 8s2.6-4.5 7-4.5S15 8 15 8s-2.6 4.5-7 4.5S1 8 1 8z";
const stroked = (path) => `<path fill="none" stroke="currentColor" stroke-width="1.5" d="${path}"/>`;
const filled = '<circle cx="8" cy="5" r="3" fill="currentColor"/><path fill="currentColor" d="M2 15c0-4 2.700-6 6-6s6 2 6 6z"/>';
const sign = (inside) => `<svg viewBox="0 0 16 16" aria-hidden="true">${inside}</svg>`;

// Who sees the cards of a location of each kind.
const KINDS = {
  vloc: [sign(`${stroked(EYE)}<circle cx="8" cy="8" r="2" fill="currentColor"/>`), "everybody sees it"],
  iloc: [sign(filled), "its owner sees it"],
  hloc: [sign(stroked(`${EYE}M2.500 14L13.500 2`)), "nobody sees it"],
  mem: [sign(stroked("M3 1.500h7l3 3v10H3zM5.500 7h5M5.500 10h5")), "a note, no card"],
};

// Who was shown a card that not all or others see by the kind of its place.
function peekedHtml(mask) {
  if (mask === undefined) return "";
  return `<span class="seen">seen by ${match.views.filter((seat) => (mask >> seat) & 1).join(", ")}</span>`;
}
function faceHtml(look) {
  const more = look.more ? `<small>${escaped(look.more)}</small>` : "";
  if (look.is_suited) {
    return `<b>${escaped(look.big)}</b><i>${look.small}</i><u aria-hidden="true">${look.small}</u>${more}`;
  }
  const long = look.big.length > 5 ? ' class="long"' : look.big.length > 2 ? ' class="word"' : "";
  return `<b${long}>${escaped(look.big)}</b><i>${escaped(look.small)}</i>${more}`;
}
function cardHtml(face, marks, mask) {
  const look = match.faces[face];
  const came = marks.includes("moved") ? ", just came" : "";
  const taken = marks.includes("taken") ? ", is taken now" : "";
  const style = look.is_suited ? `suited ${look.colour}` : "text";
  const said = `role="img" aria-label="${escaped(look.said)}${came}${taken}"`;
  return `<span class="card ${style} ${marks}"${tint(look)} ${said}>${faceHtml(look)}${peekedHtml(mask)}</span>`;
}

// Suits in an order in which red and black ones alternate; other cards by what is below their corner.
function sortKey(face) {
  const look = match.faces[face];
  return `${look.is_suited ? "♠♥♣♦".indexOf(look.small) : look.small}${String(face).padStart(4, "0")}`;
}

// Cards as they are drawn: each that is seen by itself, and those beside each other that aren't as one back with their number.
function runsOf(cards) {
  const runs = [];
  for (const card of cards) {
    const last = runs.at(-1);
    if (card.face === null && last?.face === null) {
      last.count++;
      last.isNew ||= card.isNew;
    } else runs.push({ ...card, count: 1 });
  }
  return runs;
}

// Which runs are marked: those that just came, and those that are taken now.
function marker(at, runs, taken) {
  const isTaken = (run, number) => {
    if (taken === null || taken.at !== at || run.face === null) return false;
    if (taken.isGroup) return taken.faces.includes(run.face);
    return number === runs.findLastIndex((other) => other.face === taken.faces[0]);
  };
  return (run, number) => `${run.isNew ? "moved" : ""} ${isTaken(run, number) ? "taken" : ""}`;
}
function backsHtml(run, isFan) {
  const moved = run.isNew ? "moved" : "";
  if (isFan) {
    const back = (number) => `<li class="fan"><span class="back ${number === run.count - 1 ? moved : ""}"></span></li>`;
    return Array.from({ length: run.count }, (_, number) => back(number)).join("");
  }
  const count = run.count > 1 ? `<span>${run.count}</span>` : "";
  return `<li class="run"><span class="back ${run.count > 1 ? "pile" : ""} ${moved}">${count}</span></li>`;
}

// More cards than fit beside each other are small; those of a sorted hand stand in groups, which say once what they share.
function manyHtml(runs, marks, isSorted) {
  const one = (run, number) => (run.face === null ? `<span class="mini">×${run.count}</span>` : mini(run.face, marks(run, number)));
  const shared = (run) => (run.face === null ? "" : match.faces[run.face].small);
  if (!isSorted || runs.some((run) => !shared(run))) return `<div class="many">${runs.map(one).join("")}</div>`;
  const groups = new Map();
  runs.forEach((run, number) => groups.set(shared(run), (groups.get(shared(run)) || "") + one(run, number)));
  const group = ([small, html]) => `<div class="many"><span class="shared">${escaped(small)}</span>${html}</div>`;
  return `<div class="groups">${[...groups].map(group).join("")}</div>`;
}
