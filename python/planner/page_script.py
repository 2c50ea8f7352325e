"""What a page does: it looks up what was written in it, and shows it. It computes no bound and no ruling."""

SCRIPT = r"""
"use strict";
(() => {
  const at = (id) => document.getElementById(id);
  const facts = JSON.parse(at("facts").textContent);
  const { stops, words, kinds, ranks } = facts;
  const root = document.documentElement, sea = at("sea"), slider = at("slider"), typed = at("typed"), pick = at("pick");
  const legs = facts.legs.map((leg, place) => {
    const number = place + 1, row = at(`row-${number}`);
    const parts = { line: at(`line-${number}`), halo: at(`halo-${number}`), hit: at(`leg-${number}`), label: at(`cost-${number}`) };
    return { ...leg, ...parts, number, row, cell: row.querySelector(".ruling"), kind: "" };
  });
  const nobody = at("shown-name").textContent;
  let here = 0, ceiling = stops[0].ceiling, pointed = 0, chosen = 0;

  // What the written rulings say of a leg at the present stop.
  const kindAt = (number) => stops[here].rulings === null ? "dead" : kinds[stops[here].rulings[number - 1]];
  const wordAt = (number) => stops[here].rulings === null ? "dead" : words[stops[here].rulings[number - 1]];

  function showLegs() {
    const stop = stops[here], fresh = ceiling === stop.ceiling ? stop.new : [];
    for (const leg of legs) {
      const kind = kindAt(leg.number), isNew = fresh.includes(leg.number) ? " new" : "";
      leg.kind = kind;
      leg.line.setAttribute("class", `line ${kind}`);
      leg.halo.setAttribute("class", `halo${isNew}`);
      leg.label?.setAttribute("class", `cost ${kind}`);
      leg.row.className = kind + isNew;
      leg.cell.textContent = wordAt(leg.number);
      leg.hit.setAttribute("aria-label", `leg ${leg.number}, ${leg.name}, ${wordAt(leg.number)}`);
    }
    at("lines").append(...[...legs].sort((one, other) => ranks.indexOf(one.kind) - ranks.indexOf(other.kind)).map((leg) => leg.line));
    sea.classList.toggle("dead", stop.rulings === null);
    sea.classList.toggle("alive", stop.rulings !== null);
  }

  function showWords() {
    const stop = stops[here], exact = ceiling === stop.ceiling;
    at("ceiling").textContent = ceiling;
    at("says").textContent = stop.says;
    at("says").className = stop.rulings === null ? "dead-word" : "";
    at("news").textContent = exact ? stop.news : `As at ceiling ${stop.ceiling}.`;
    at("at").textContent = ceiling;
    slider.value = here;
    slider.setAttribute("aria-valuetext", `ceiling ${ceiling}`);
    at("higher").setAttribute("aria-disabled", here === 0 && exact);
    at("lower").setAttribute("aria-disabled", here === stops.length - 1);
    kinds.forEach((kind, place) => { const count = at(`count-${kind}`); if (count) count.textContent = stop.counts ? stop.counts[place] : "\u2013"; });
    sea.setAttribute("aria-label", `The sea at ceiling ${ceiling}. Each leg is a button that shows its cost and its previews.`);
    if (at("above")) at("above").textContent = ceiling < facts.round ? ", above this ceiling" : "";
  }

  function showLeg() {
    const number = pointed || chosen, leg = number ? legs[number - 1] : null;
    for (const each of legs) {
      each.halo.classList.toggle("pointed", each.number === pointed);
      each.halo.classList.toggle("chosen", each.number === chosen);
      each.row.classList.toggle("shown", each.number === number);
      each.hit.setAttribute("aria-pressed", each.number === chosen);
    }
    at("facts-of-leg").hidden = leg === null;
    at("shown-name").textContent = leg === null ? nobody : `Leg ${number}: ${leg.name}, cost ${leg.cost}`;
    pick.value = chosen;
    if (leg === null) return;
    const told = { ruling: wordAt(number), from: leg.from, required: leg.required, struck: leg.struck };
    for (const [what, text] of Object.entries(told)) at(`shown-${what}`).textContent = text;
    reveal(leg.row);
  }

  // Scrolls the table, never the page.
  function reveal(row) {
    const table = at("table"), head = table.querySelector("thead").offsetHeight;
    if (row.offsetTop - head < table.scrollTop) table.scrollTop = row.offsetTop - head;
    else if (row.offsetTop + row.offsetHeight > table.scrollTop + table.clientHeight) table.scrollTop = row.offsetTop + row.offsetHeight - table.clientHeight;
  }

  function show() { showLegs(); showWords(); showLeg(); at("fault").textContent = ""; }
  function go(stop) { here = Math.max(0, Math.min(stops.length - 1, stop)); ceiling = stops[here].ceiling; at("wanted").value = ceiling; show(); }
  const lower = () => go(here + 1);
  const higher = () => go(ceiling === stops[here].ceiling ? here - 1 : here);
  function point(number) { if (number !== pointed) { pointed = number; showLeg(); } }
  function choose(number) { chosen = number === chosen ? 0 : number; showLeg(); }

  // A ceiling between two stops has the rulings of the upper one: nothing changes there.
  function typedCeiling(text) {
    const wanted = /^\s*-?[0-9]{1,15}\s*$/.test(text) ? Number(text) : NaN;
    if (!(wanted <= stops[0].ceiling && wanted >= stops[stops.length - 1].ceiling)) {
      at("fault").textContent = `Allowed is ${stops[stops.length - 1].ceiling} to ${stops[0].ceiling}.`;
      return;
    }
    here = stops.filter((stop) => stop.ceiling >= wanted).length - 1;
    ceiling = wanted;
    show();
  }

  function layRound() {
    if (!at("lay")) return;
    const laid = root.classList.toggle("round");
    at("lay").setAttribute("aria-pressed", laid);
    at("laid").textContent = laid ? facts.laid : "The round is taken away.";
  }

  const moves = {
    __proto__: null, ArrowRight: lower, ArrowDown: lower, PageDown: lower, ArrowLeft: higher, ArrowUp: higher, PageUp: higher,
    Home: () => go(0), End: () => go(stops.length - 1),
  };
  document.addEventListener("keydown", (event) => {
    if (event.ctrlKey || event.altKey || event.metaKey || event.defaultPrevented) return;
    const target = event.target, key = event.key;
    if (target.closest("#wanted, select")) return;
    const number = Number(target.dataset.leg ?? 0);
    if (number && (key === "Enter" || key === " ")) choose(number);
    else if (key === "Escape") { chosen = 0; pointed = 0; showLeg(); }
    else if (target !== slider && !at("keys").checked) return;
    else if (key === "r" || key === "R") layRound();
    else if (key in moves && !target.closest("#table")) moves[key]();
    else return;
    event.preventDefault();
  });

  const legOf = (event) => Number(event.target.dataset?.leg ?? 0);
  sea.addEventListener("pointerover", (event) => point(legOf(event)));
  sea.addEventListener("pointerleave", () => point(0));
  // On the figure: a browser gives the focus to a drawing that listens for it.
  sea.parentNode.addEventListener("focusin", (event) => point(legOf(event)));
  sea.parentNode.addEventListener("focusout", () => point(0));
  sea.addEventListener("click", (event) => { if (legOf(event)) choose(legOf(event)); });
  at("table").addEventListener("click", (event) => { const row = event.target.closest("tr[data-leg]"); if (row) choose(Number(row.dataset.leg)); });
  slider.addEventListener("input", () => go(Number(slider.value)));
  pick.addEventListener("change", () => { chosen = Number(pick.value); showLeg(); });
  typed.addEventListener("submit", (event) => { event.preventDefault(); typedCeiling(at("wanted").value); });
  at("higher").addEventListener("click", higher);
  at("lower").addEventListener("click", lower);
  at("lay")?.addEventListener("click", layRound);

  for (const leg of legs) { leg.hit.setAttribute("tabindex", "0"); leg.hit.setAttribute("role", "button"); }
  sea.setAttribute("role", "group");
  root.classList.add("live");
  go(0);
})();
"""
