// The scores through the match, as a line for each player or team.
const HUES = ["blue", "orange", "green", "purple", "red", "teal", "brown", "grey"];
const DASHES = ["", "5 2", "2 2", "7 2 2 2"];
const PLOT = { width: 302, height: 96, left: 2, right: 40, top: 8, bottom: 8 };

// The scores of each side at each stop; nothing where they stand still until the end.
function courses() {
  const found = match.stops.filter((it) => it.scores).map((it) => it.scores);
  if (view.as !== ALL || found.length < 3) return [];
  if (match.closed) found[found.length - 1] = match.end.scores;
  const sides = match.teams.length ? match.teams : match.end.scores.map((_, seat) => [seat]);
  const series = sides.map((members) => found.map((row) => members.reduce((sum, seat) => sum + row[seat], 0)));
  return series.some((it) => it.slice(0, -1).some((value) => value !== it[0])) ? series : [];
}
function lineHtml(values, side, x, y) {
  const to = (at) => (at ? `H${x(at).toFixed(1)}V` : `M${x(at).toFixed(1)} `);
  const path = values.map((value, at) => `${to(at)}${y(value).toFixed(1)}`).join("");
  const style = `stroke="var(--l-${HUES[side]})" stroke-width="1.8" stroke-dasharray="${DASHES[side % 4]}"`;
  return `<path fill="none" ${style} d="${path}"/>`;
}

// The names of the sides where their lines end. Those that end at one height stand beside each other.
function namesHtml(series, y) {
  const ends = series.map((it, side) => ({ side, y: y(it.at(-1)) })).sort((a, b) => a.y - b.y);
  const labels = [];
  for (const end of ends) {
    if (labels.length && end.y - labels.at(-1).y < 9) labels.at(-1).sides.push(end.side);
    else labels.push({ y: end.y, sides: [end.side] });
  }
  const letter = match.teams.length ? "T" : "P";
  const name = (side) => `<tspan fill="var(--l-${HUES[side]})" font-weight="700">${letter}${side}</tspan>`;
  const x = PLOT.width - PLOT.right + 5;
  return labels.map((it) => `<text x="${x}" y="${it.y + 4}" font-size="11">${it.sides.map(name).join(" ")}</text>`).join("");
}
function scoresHtml() {
  const series = courses();
  if (!series.length) return "";
  const [low, high] = [Math.min(...series.flat()), Math.max(...series.flat())];
  const { width, height, left, right, top, bottom } = PLOT;
  const count = series[0].length;
  const x = (at) => left + (at / (count - 1)) * (width - left - right);
  const y = (value) => top + ((high - value) / (high - low)) * (height - top - bottom);
  const lines = series.map((it, side) => lineHtml(it, side, x, y)).join("") + namesHtml(series, y);
  const here = x(Math.min(view.step, count - 1)).toFixed(1);
  const line = `<line x1="${here}" x2="${here}" y1="2" y2="${height - 2}" stroke="currentColor" stroke-width="1.2"/>`;
  const said = `The scores of all ${match.teams.length ? "teams" : "players"} through the match, from ${low} to ${high}`;
  const head = `<h2><span>Scores, if it ended now</span><span>${low} to ${high}</span></h2>`;
  return `${head}<svg class="chart" viewBox="0 0 ${width} ${height}" role="img" aria-label="${said}">${lines}${line}</svg>`;
}

// The decision at a place of the plot.
function stopAt(event) {
  const box = element("scores").querySelector("svg").getBoundingClientRect();
  const { width, left, right } = PLOT;
  const x = ((event.clientX - box.left) / box.width) * width - left;
  return Math.round((x / (width - left - right)) * (match.stops.length - 1));
}
