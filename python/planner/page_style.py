"""How a page looks: on a projector, in a narrow window, on paper. Nothing is said by colour alone."""
from __future__ import annotations

import re

from .drawing import BUOY, FAINT, HAULED_OUT, STYLES, THIN, TOUR


def declared(look: str) -> str:
    """The attributes of a stroke as a style."""
    return " ".join(f"{name}: {value};" for name, value in re.findall(r'([a-z-]+)="([^"]*)"', look))


def strokes() -> str:
    """The looks of `draw`, as styles."""
    looks = [f".line.{kind}, .sample.{kind} {{ {declared(look)} }}" for kind, (_, look) in STYLES.items()]
    faint = ", ".join(f".many .line.{kind}" for kind in FAINT)
    buoys = f".buoy {{ {declared(BUOY)} }}\n.buoy.out {{ {declared(HAULED_OUT)} }}"
    return "\n".join([*looks, f".band, .sample.round {{ {declared(TOUR)} }}", buoys, f"{faint} {{ {declared(THIN)} }}"])


STYLE = """
:root { font: 400 clamp(16px, min(1.4vw, 2.45vh), 30px)/1.35 "DejaVu Sans", Verdana, Helvetica, Arial, sans-serif; color: #14213d; background: #fff; }
* { box-sizing: border-box; }
[hidden] { display: none !important; }
body { margin: 0; }
h1, h2, p, figure, dl, dd, ul { margin: 0; padding: 0; }
h1 { font-size: 1.25rem; overflow-wrap: anywhere; }
h2 { font-size: 1rem; }
.skip, .unseen { position: absolute; left: -200vw; }
.skip:focus { left: 0.5rem; top: 0.5rem; z-index: 9; padding: 0.5rem; background: #fff; outline: 3px solid #14213d; }
.screen { display: flex; flex-direction: column; gap: 0.6rem; padding: 0.6rem 0.8rem; }
.strip { display: flex; flex-wrap: wrap; align-items: center; gap: 0.4rem 1.2rem; }
.strip header { max-width: 34vw; }
.controls { display: none; flex: 1 1 24rem; flex-wrap: wrap; align-items: center; gap: 0.4rem 1rem; }
.live .controls { display: flex; }
.mover { display: flex; flex: 1 1 14rem; align-items: center; gap: 0.4rem; }
#slider { flex: 1; min-width: 6rem; height: 2.4rem; accent-color: #0063b1; cursor: pointer; }
button, input, select { font: inherit; color: inherit; }
button, select, .field { min-height: 2.4rem; padding: 0.2rem 0.7rem; border: 2px solid #14213d; border-radius: 0.4rem; background: #fff; }
button { font-weight: bold; cursor: pointer; }
button[aria-pressed="true"] { color: #14213d; background: #fbcb5b; box-shadow: inset 0 0 0 2px #14213d; }
button[aria-disabled="true"] { color: #56697c; border-color: #8b98a6; cursor: default; }
.field { width: 8.5rem; text-align: right; }
.typed { display: flex; flex-wrap: wrap; align-items: center; gap: 0.4rem; }
.fault { flex-basis: 100%; color: #9c1c00; font-weight: bold; }
.fault:empty { display: none; }
:focus-visible { outline: 3px solid #14213d; outline-offset: 2px; }

figure { display: flex; flex-direction: column; gap: 0.3rem; min-width: 0; }
#sea { display: block; width: 100%; min-height: 0; forced-color-adjust: none; }
.water { fill: #e8f2f9; }
.line, .halo, .hit, .band, .core { fill: none; }
.line { transition: stroke-width 0.35s, stroke-opacity 0.35s; }
.line.dead { stroke: #7b8896; stroke-width: 1.2; stroke-dasharray: 2 6; }
.core { stroke: #fff; stroke-width: 1.6; }
.dead .core { display: none; }
.halo { stroke: none; stroke-width: 13; stroke-linecap: round; }
.halo.new { stroke: #c2308c; stroke-opacity: 0.45; stroke-width: 13; }
.halo.pointed, .halo.chosen { stroke: #14213d; stroke-opacity: 0.6; stroke-width: 14; }
.hit { stroke: #000; stroke-opacity: 0; stroke-width: 16; pointer-events: stroke; outline: none; }
.live .hit, .live .cost { cursor: pointer; }
.number { font: bold 15px "DejaVu Sans", Verdana, Arial, sans-serif; fill: #14213d; pointer-events: none; }
.number.out { font-weight: normal; fill: #56697c; }
.cost rect { fill: #fff; fill-opacity: 0.94; }
.cost text { font: 12.5px "DejaVu Sans", Verdana, Arial, sans-serif; fill: #14213d; }
.cost.force text, .cost.required text { font-weight: bold; }
.stamp { display: none; font: bold 27px "DejaVu Sans", Verdana, Arial, sans-serif; letter-spacing: 3px; fill: #9c1c00; pointer-events: none; }
.dead .stamp { display: block; }
.live:not(.round) #bands, .live:not(.round) table .in-round { display: none; }
.live:not(.round) .legend .in-round { visibility: hidden; }

.legend { display: flex; flex-wrap: wrap; gap: 0.1rem 1.1rem; list-style: none; }
.legend li { display: flex; align-items: center; gap: 0.4rem; }
.legend svg { width: 3rem; height: 1.3rem; flex: none; }
.sample { fill: none; }
.notes { font-size: 0.85rem; }
.word { white-space: nowrap; }
aside { display: flex; flex-direction: column; gap: 0.6rem; min-width: 0; }
.big { display: flex; flex-wrap: wrap; align-items: baseline; gap: 0 1.2rem; font-size: 1.15rem; }
.big b { font-size: 2.5rem; line-height: 1.1; font-variant-numeric: tabular-nums; }
.big .second b { font-size: 1.6rem; }
.dead-word { color: #9c1c00; font-weight: bold; font-size: 1.1rem; }
#news { font-weight: bold; }
.card { display: none; border: 2px solid #14213d; border-radius: 0.5rem; padding: 0.4rem 0.7rem; }
.live .card { display: block; }
.card .pick { float: right; }
.card .name { font-size: 1.1rem; font-weight: bold; min-height: 2.6rem; padding-top: 0.3rem; overflow-wrap: anywhere; }
.card dl { clear: both; display: flex; flex-wrap: wrap; gap: 0.1rem 1.3rem; }
.card dl div { display: flex; align-items: baseline; gap: 0.5rem; }
.card dd { font-size: 1.1rem; font-weight: bold; font-variant-numeric: tabular-nums; overflow-wrap: anywhere; }
.table { overflow: auto; border: 2px solid #14213d; border-radius: 0.5rem; }
table { width: 100%; border-collapse: separate; border-spacing: 0; font-size: 0.8rem; font-variant-numeric: tabular-nums; }
caption { padding: 0.2rem 0.6rem; text-align: left; font-weight: bold; }
th, td { padding: 0.12rem 0.24rem; text-align: right; white-space: nowrap; border-top: 1px solid #c3ccd6; }
thead th { position: sticky; top: 0; background: #14213d; color: #fff; font-size: 0.78rem; vertical-align: bottom; white-space: normal; line-height: 1.15; }
td.ruling, td.from, th.ruling, th.from { text-align: left; }
tr.force td.ruling, tr.required td.ruling { font-weight: bold; }
tr.bar td.ruling, tr.struck td.ruling, tr.ashore td.ruling { font-style: italic; }
tr.new td.ruling::after { content: " \\2022"; color: #c2308c; }
tr.shown > * { background: #fff0c8; box-shadow: inset 0 2px 0 #14213d, inset 0 -2px 0 #14213d; }
.about { padding: 0.6rem 0.8rem 1.5rem; max-width: 60rem; }
.about dl { display: grid; grid-template-columns: auto 1fr; gap: 0.15rem 1rem; margin: 0.3rem 0 0.8rem; }
.about dt { font-weight: bold; }
kbd { font: inherit; font-weight: bold; }

@media screen and (min-width: 58rem) and (min-height: 30rem) {
  .live .screen { height: 100vh; }
  main { flex: 1; min-height: 0; display: grid; grid-template: minmax(0, 1fr) / minmax(0, 1.26fr) minmax(27rem, 1fr); gap: 1rem; }
  .live #sea { flex: 1 1 0; }
  .live .notes { max-height: 4.8rem; overflow: auto; }
  .live .state { min-height: 6.4rem; }
  .live .card { min-height: 7.6rem; }
  aside { min-height: 0; }
  .table { flex: 1; min-height: 7rem; }
}
@media (prefers-reduced-motion: reduce) { .line { transition: none; } }
@media print {
  :root { font-size: 10pt; }
  .strip header { max-width: none; }
  .controls, .skip, .unseen, .live .controls, .live .card, .keys { display: none; }
  .screen, main, aside, .about { display: block; padding: 0; }
  #sea { max-height: 15cm; print-color-adjust: exact; -webkit-print-color-adjust: exact; }
  .table { overflow: visible; border: 0; margin-top: 0.5rem; }
  thead { display: table-header-group; }
  thead th { position: static; color: #000; background: none; border-bottom: 2px solid #000; }
  tr.shown > * { box-shadow: none; }
  tr, figure, .about dl { break-inside: avoid; }
  .line { transition: none; }
}
"""


def style() -> str:
    """The whole style of a page."""
    return STYLE + strokes() + "\n"
