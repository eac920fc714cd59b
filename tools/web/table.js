// The table: the game's places in the middle, and the players around it.
const teamOf = (seat) => match.teams.findIndex((it) => it.includes(seat));

// The seats go clockwise from the lower left, the looking one first.
function rows() {
  const first = view.as === ALL ? 0 : view.as;
  const seats = Array.from({ length: match.players }, (_, at) => (first + at) % match.players);
  const above = match.players === 1 ? 0 : Math.floor(match.players / 2);
  return [seats.slice(1, 1 + above), [seats[0], ...seats.slice(1 + above).reverse()], seats];
}
function scoreHtml(seat, scene) {
  if (isEnd()) return `<span class="score">score <b>${match.end.scores[seat]}</b></span>`;
  if (!scene.stop.scores || view.as !== ALL) return "";
  return `<span class="score">score now <b>${scene.stop.scores[seat]}</b></span>`;
}
function playerHtml(seat, order, scene, width) {
  const owners = match.teams.length ? [`p${seat}`] : [`p${seat}`, `t${seat}`];
  const isMoving = !isEnd() && scene.stop.seat === seat;
  const team = match.teams.length ? `<span class="badge team">team ${teamOf(seat)}</span>` : "";
  const badge = isMoving ? '<span class="badge">to choose</span>' : "";
  const strategy = `<span class="plan">${escaped(knows(seat) ? match.strategies[seat] : "")}</span>`;
  const head = `<div class="head"><span class="who">Player ${seat}</span>${team}${badge}${strategy}${scoreHtml(seat, scene)}</div>`;
  const numbers = owners.map((it) => numbersHtml(it, scene)).join("");
  const places = placesHtml(owners.flatMap(used), scene, width);
  const style = `class="player ${isMoving ? "moving" : ""}" style="--seat:${order}"`;
  return `<section ${style} aria-label="Player ${seat}">${head}${numbers}${places}${unusedHtml(owners)}</section>`;
}

// Where the card lies that is taken now: where it leaves, if it is known; a place of the mover's own before others.
function takenOf(stop, state) {
  if (isEnd() || !stop.choice || !knows(stop.seat)) return null;
  const variable = stop.choice.findIndex((it, at) => at > 0 && it[0] !== "p");
  if (variable < 0) return null;
  const mark = stop.choice[variable];
  const face = Number(mark.slice(1));
  const count = (table, at) => table.places[at].filter((place) => seenBy(place) === face).length;
  const places = match.locations.map((_, at) => at).filter((at) => match.locations[at][1] !== "mem" && count(state, at));
  const next = states[view.step + 1];
  const leaves = (at) => next && count(next, at) < count(state, at);
  const isOwn = (at) => match.locations[at][2] === `p${stop.seat}`;
  const rank = (at) => (leaves(at) ? 2 : 0) + (isOwn(at) ? 1 : 0);
  const at = [...places].sort((a, b) => rank(b) - rank(a) || a - b)[0];
  if (at === undefined) return null;
  const attribute = alternativeOf(stop, stop.choice).groups[variable - 1];
  const isShared = (it) => valueOf(it, attribute) === valueOf(face, attribute);
  const faces = mark[0] === "g" && attribute ? match.faces.map((_, it) => it).filter(isShared) : [face];
  return { at, faces, isGroup: faces.length > 1 };
}
function teamHtml(members, team, scene, width) {
  const holder = `t${team}`;
  const numbers = numbersHtml(holder, scene);
  if (!used(holder).length && !numbers) return "";
  const scores = isEnd() ? match.end.scores : view.as === ALL && scene.stop.scores;
  const sum = () => members.reduce((total, seat) => total + scores[seat], 0);
  const score = scores ? `<span class="score">together <b>${sum()}</b></span>` : "";
  const who = `<span class="who">Team ${team}</span><span class="soft">players ${members.join(" and ")}</span>`;
  const places = placesHtml(used(holder), scene, width);
  return `<section aria-label="Team ${team}"><div class="head">${who}${score}</div>${numbers}${places}</section>`;
}
function feltHtml(scene, whole, isNarrow) {
  const room = isNarrow ? whole - 40 : whole / 2 - 60;
  const teams = match.teams.map((members, team) => teamHtml(members, team, scene, room)).join("");
  const numbers = numbersHtml("g", scene);
  if (!used("g").length && !teams && !numbers) return "";
  const places = placesHtml(used("g"), scene, whole - 60);
  const band = teams ? `<div class="team-band">${teams}</div>` : "";
  return `<section class="felt" aria-label="Table">${numbers}${places}${band}${unusedHtml(["g"])}</section>`;
}
function tableHtml(scene) {
  const [above, below, all] = rows();
  const whole = element("table").clientWidth || 900;
  const isNarrow = window.innerWidth <= 900;
  const room = (count) => (isNarrow ? whole : (whole - 10 * (count - 1)) / count) - 34;
  const row = (seats) => {
    const players = seats.map((seat) => playerHtml(seat, all.indexOf(seat), scene, room(seats.length)));
    return seats.length ? `<div class="row" style="--columns:${seats.length}">${players.join("")}</div>` : "";
  };
  return row(above) + feltHtml(scene, whole, isNarrow) + row(below);
}
