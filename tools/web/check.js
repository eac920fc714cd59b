// With `#check` the page goes through all that it has, or evenly through so many decisions of it, and tells in an attribute what it
// found: for tests without a debugger.
function check(most) {
  const faults = new Set();
  const count = (state) => state.places.reduce((sum, it, at) => sum + (match.locations[at][1] === "mem" ? 0 : it.length), 0);
  if (new Set(states.map(count)).size > 1) faults.add("cards appear or vanish");
  const views = isWhole ? [ALL, ...match.views] : match.views;
  const stride = Math.max(1, Math.ceil((views.length * (LAST + 1)) / most));
  let drawn = 0;
  for (const as of views) {
    lookAs(as);
    for (let step = 0; step < LAST + stride; step += stride, drawn++) {
      go(step);
      if (/undefined|NaN|\[object/.test(document.querySelector("main").textContent)) faults.add(`step ${step} as ${as}`);
    }
  }
  const isTooWide = document.documentElement.scrollWidth > window.innerWidth;
  if (isTooWide) faults.add("wider than the window");
  document.body.dataset.checked = `${drawn} drawn, ${faults.size} faults${[...faults].slice(0, 5).map((it) => `; ${it}`).join("")}`;
}
if (isCheck) check(600);
