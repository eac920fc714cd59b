// Owners, cards and choices in words.
const isPlayer = (holder) => holder[0] === "p" || !match.teams.length;
const ownerName = (holder) => (holder === "g" ? "" : `${isPlayer(holder) ? "player" : "team"} ${holder.slice(1)}`);
const placeName = (at) => {
  const [name, , holder] = match.locations[at];
  return holder === "g" ? name : `${name} of ${ownerName(holder)}`;
};
const tinted = (look) => (look.is_suited ? look.colour : "text");
const tint = (look) => (look.is_suited ? "" : ` style="--tint:var(--c-${look.colour})"`);
const valueOf = (face, attribute) => match.faces[face].pairs.find(([name]) => name === attribute)?.[1];

// A card in a line of text.
function mini(face, more = "") {
  const look = match.faces[face];
  const plain = look.small ? `<span>${escaped(look.small)}</span>` : "";
  const rest = look.is_suited ? `<span class="sign">${look.small}</span>` : plain;
  const said = `role="img" aria-label="${escaped(look.said)}"`;
  return `<span class="mini ${tinted(look)} ${more}"${tint(look)} ${said}>${escaped(look.big)}${rest}</span>`;
}
function markHtml(mark, attribute) {
  const number = Number(mark.slice(1));
  if (mark[0] === "p") return `player ${number}`;
  if (mark[0] === "c") return mini(number);
  const value = valueOf(number, attribute);
  return value === undefined ? `the group of ${mini(number)}` : `all ${escaped(attribute)} ${escaped(value)}`;
}

// The alternative of an item: the one that its tag tells, or the only one that binds as much.
function alternativeOf(stop, item) {
  const { alternatives } = match.sites[stop.site];
  if (item[0] >= 0) return alternatives[item[0]];
  const fitting = alternatives.filter((it) => it.groups.length === item.length - 1);
  return fitting.length === 1 ? fitting[0] : { label: "", words: "", groups: [] };
}
const alternativeWords = ({ label, words }) => label || words;
function marksHtml(stop, item) {
  const { groups } = alternativeOf(stop, item);
  return item.slice(1).map((mark, at) => markHtml(mark, groups[at])).join(", ").replace(/<\/span>, /g, "</span> ");
}

// What was chosen: the cards and players that it took, else what it does.
function choiceHtml(stop) {
  const words = alternativeWords(alternativeOf(stop, stop.choice)) || `item ${stop.item}`;
  return marksHtml(stop, stop.choice) || escaped(words);
}

// What else is to be said of a choice.
function besideChoice(stop) {
  const alternative = alternativeOf(stop, stop.choice);
  const isBound = stop.choice.length > 1;
  if (isBound) return match.sites[stop.site].alternatives.length > 1 ? escaped(alternativeWords(alternative)) : "";
  return alternative.label ? escaped(alternative.words) : "";
}
