// What stands beside the table: the choice, its menu, the end.
function stagesHtml(stop) {
  return stop.frames.map(([number, member, isBackward, named]) => {
    const stage = match.stages[number];
    const label = stage.label ? `${escaped(stage.label)}${stage.label.endsWith("…") ? "" : "."} ` : "";
    const next = named < 0 ? "" : `, ${stage.class} ${named} is named next`;
    return `<span>${label}Round of ${stage.class} ${member}${isBackward ? ", backward" : ""}${next}</span>`;
  }).join("");
}
function itemHtml(stop, html, at, style = "") {
  const isChosen = at === stop.item;
  return `<span class="item ${style} ${isChosen ? "chosen" : ""}">${isChosen ? "✓ " : ""}${html}</span>`;
}

// The menu, the items of each alternative together.
function menuHtml(stop) {
  if (!stop.menu) return "";
  const groups = new Map();
  stop.menu.forEach((item, at) => groups.set(item[0], [...(groups.get(item[0]) || []), [item, at]]));
  const many = match.sites[stop.site].alternatives.length > 1;
  return [...groups.values()].map((items) => {
    const words = escaped(alternativeWords(alternativeOf(stop, items[0][0])));
    if (items[0][0].length === 1) return items.map(([, at]) => `<div>${itemHtml(stop, words, at, "words")}</div>`).join("");
    const chips = items.map(([item, at]) => itemHtml(stop, marksHtml(stop, item), at)).join("");
    return `<div class="alternative">${many ? `<p>${words}</p>` : ""}<div class="items">${chips}</div></div>`;
  }).join("");
}
function nowHtml(stop) {
  if (isEnd()) return endHtml();
  const head = `<h2><span>Decision ${view.step + 1} of ${match.decisions}</span><span>turn ${stop.turn}</span></h2>`;
  const stages = `<div class="crumbs">${stagesHtml(stop)}</div>`;
  if (!knows(stop.seat)) {
    const why = `Player ${view.as} isn't shown what. The list says which faces come to be seen by it.`;
    return `${head}<p class="said">Player ${stop.seat} chooses</p><p class="sub">${why}</p>${stages}`;
  }
  const verb = stop.choice.length > 1 && stop.choice[1][0] !== "p" ? " takes " : ": ";
  const beside = besideChoice(stop);
  const size = stop.size === 1 ? "It was the only item." : `One of ${stop.size} items.`;
  const menu = menuHtml(stop);
  const button = '<button class="more" type="button" id="more">The menu</button>';
  const more = `${button}<div class="menu" aria-label="The menu">${menu}</div>`;
  const said = `<p class="said">Player ${stop.seat}${verb}${choiceHtml(stop)}</p>`;
  return `${head}${said}<p class="sub">${beside ? `${beside}. ` : ""}${size}</p>${stages}${menu ? more : ""}`;
}
function resultsHtml() {
  const { points, scores } = match.end;
  const best = Math.max(...points);
  const order = points.map((_, seat) => seat).sort((a, b) => points[b] - points[a] || a - b);
  const row = (seat) => {
    const cells = [`Player ${seat}`, scores[seat], points[seat]].map((it) => `<td>${it}</td>`).join("");
    return `<tr class="${points[seat] === best ? "best" : ""}">${cells}</tr>`;
  };
  const heads = [match.best === "max" ? "more is better" : "fewer is better", "score", "rank points"];
  const head = heads.map((it) => `<th scope="col">${it}</th>`).join("");
  return `<table class="results"><thead><tr>${head}</tr></thead><tbody>${order.map(row).join("")}</tbody></table>`;
}
function endHtml() {
  const { word, turn } = match.end;
  const how = word === "done" ? `The match is done after ${turn} turns` : `The turn limit ends the match after ${turn} turns`;
  const left = match.decisions - shown;
  const number = (value) => value.toLocaleString("en");
  const cut = `A log shows the first ${number(shown)} decisions. ${number(left)} more followed, and the table is that of the last of these.`;
  const open = "The table is that before the last choice: what followed isn't in the logs.";
  const warning = left > 0 ? cut : match.closed ? "" : open;
  const head = `<h2><span>The end</span><span>turn ${turn}</span></h2><p class="said">${how}</p>`;
  return `${head}${resultsHtml()}${warning ? `<p class="warn">${warning}</p>` : ""}`;
}
