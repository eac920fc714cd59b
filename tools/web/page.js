// The list of decisions, the transport and the keys.
// What a seat sees of another one's choice: the faces that it sees at the next decision and didn't see before.
function observedHtml(at) {
  if (!states[at + 1]) return "";
  const hid = (from) => typeof from === "number" && states[at].places[from].some((place) => !isSeen(place));
  const moves = difference(states[at], states[at + 1]).moves.filter(({ from }) => from === "came" || hid(from));
  const faces = moves.flatMap((it) => it.faces).filter((face) => face !== null);
  return faces.slice(0, 5).map((face) => mini(face)).join("") + (faces.length > 5 ? " …" : "");
}
function listItem(step, number, seat, what, title = "") {
  const cells = `<span class="no">${number}</span><span class="seat"${title}>${seat}</span><span class="what">${what}</span>`;
  return `<li><button type="button" data-step="${step}">${cells}</button></li>`;
}
function drawList() {
  const items = match.stops.slice(0, shown).map((stop, at) => {
    const what = knows(stop.seat) ? choiceHtml(stop) : observedHtml(at) || '<span class="soft">not shown</span>';
    return listItem(at, at + 1, stop.seat, what, ` title="player ${stop.seat}"`);
  });
  element("list").innerHTML = [...items, listItem(LAST, "", "■", "The end")].join("");
}
function markInList() {
  const list = element("list");
  list.querySelector("[aria-current]")?.removeAttribute("aria-current");
  const here = list.querySelector(`[data-step="${view.step}"]`);
  here.setAttribute("aria-current", "step");
  const top = here.offsetTop - list.offsetTop;
  const isAbove = top < list.scrollTop;
  const isBelow = top + here.offsetHeight > list.scrollTop + list.clientHeight;
  if (isAbove || isBelow) list.scrollTop = top - list.clientHeight / 2;
}

// What is drawn of a decision.
function sceneOf(step) {
  const at = stateOf(step);
  const state = states[at] || { places: match.locations.map(() => []), numbers: match.numbers.map(() => 0) };
  const isSame = step === 0 || (isEnd() && !match.closed);
  const old = isSame ? state : states[at - 1];
  const stop = match.stops[at] || { frames: [] };
  return { state, old, stop, isSame, change: difference(old, state), taken: takenOf(stop, state) };
}
function draw() {
  const scene = sceneOf(view.step);
  const scores = scoresHtml();
  element("table").innerHTML = tableHtml(scene);
  element("now").innerHTML = nowHtml(scene.stop);
  element("since").hidden = scene.isSame;
  const moves = scene.change.moves.map(moveHtml).join("");
  element("moves").innerHTML = moves || '<li class="soft">No card moved that is seen here.</li>';
  element("scores").hidden = !scores;
  element("scores").innerHTML = scores;
  element("range").value = view.step;
  element("range").setAttribute("aria-valuetext", isEnd() ? "the end" : `decision ${view.step + 1} of ${match.decisions}`);
  element("place").textContent = isEnd() ? "the end" : `${view.step + 1} / ${match.decisions}`;
  document.body.classList.toggle("dim", isEnd() && !match.closed);
  markInList();
}
function go(step) {
  view.step = Math.max(0, Math.min(LAST, step));
  if (view.timer && isEnd()) play(false);
  draw();
  clearTimeout(view.noting);
  view.noting = setTimeout(note, 300);
}

// The address names the decision, so that it can be sent. Browsers refuse to note too many of them in a short time.
function note() {
  try {
    history.replaceState(null, "", `#stop=${view.step}&as=${view.as}`);
  } catch {
    // The page goes on without it.
  }
}
const drawing = (path) => `<svg viewBox="0 0 20 20" aria-hidden="true"><path d="${path}"/></svg>`;
function play(isOn) {
  clearInterval(view.timer);
  view.timer = isOn ? setInterval(() => go(view.step + 1), 1400 / view.speed) : 0;
  element("play").setAttribute("aria-label", isOn ? "Pause" : "Play");
  element("play").innerHTML = drawing(isOn ? "M5 3h4v14H5zM11 3h4v14h-4z" : "M5 2.500v15l12-7.500z");
}
function playOrPause() {
  if (isEnd() && !view.timer) go(0);
  play(!view.timer);
}
function lookAs(as) {
  view.as = as;
  document.querySelectorAll("[name=as]").forEach((it) => (it.checked = it.value === String(as)));
  drawList();
  go(view.step);
}
function readAddress() {
  const told = new URLSearchParams(location.hash.slice(1));
  const as = told.get("as");
  if (as === ALL && isWhole) view.as = ALL;
  else if (as !== null && match.views.includes(Number(as))) view.as = Number(as);
  view.step = Math.max(0, Math.min(LAST, Number(told.get("stop")) || 0));
}
function onKey(event) {
  if (event.altKey || event.ctrlKey || event.metaKey || event.target.closest("input[type=radio], select")) return;
  const steps = { ArrowLeft: view.step - 1, ArrowRight: view.step + 1, Home: 0, End: LAST };
  const isSeat = /^[0-7]$/.test(event.key) && match.views.includes(Number(event.key));
  if (event.key in steps) go(steps[event.key]);
  else if (isSeat) lookAs(Number(event.key));
  else if (event.key === "e" && isWhole) lookAs(ALL);
  else if (event.key === " " && !event.target.closest("button, input")) playOrPause();
  else return;
  event.preventDefault();
}
function listen(id, kind, doing) {
  element(id).addEventListener(kind, doing);
}
function begin() {
  const isWide = (it) => !it.is_suited && (it.big.length > 3 || it.small.length > 6 || it.more.length > 6);
  document.body.classList.toggle("wide", match.faces.some(isWide));
  element("range").max = LAST;
  document.querySelectorAll("[name=as]").forEach((it) => {
    it.addEventListener("change", () => lookAs(it.value === ALL ? ALL : Number(it.value)));
  });
  listen("sort", "change", (event) => { view.sort = event.target.checked; draw(); });
  listen("range", "input", (event) => go(Number(event.target.value)));
  listen("list", "click", (event) => { const it = event.target.closest("button"); if (it) go(Number(it.dataset.step)); });
  listen("first", "click", () => go(0));
  listen("back", "click", () => go(view.step - 1));
  listen("next", "click", () => go(view.step + 1));
  listen("last", "click", () => go(LAST));
  listen("play", "click", playOrPause);
  listen("speed", "change", (event) => { view.speed = Number(event.target.value); if (view.timer) play(true); });
  listen("now", "click", (event) => { if (event.target.id === "more") element("now").classList.toggle("open"); });
  listen("scores", "click", (event) => go(stopAt(event)));
  addEventListener("hashchange", () => { readAddress(); lookAs(view.as); });
  addEventListener("resize", draw);
  addEventListener("keydown", onKey);
  play(false);
  readAddress();
  lookAs(view.as);
}
begin();
