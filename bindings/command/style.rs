//! The colours and letters of a picture, for light and for dark screens.

pub const STYLE: &str = r#"<style>
svg { --paper: #ffffff; --ink: #1f2328; --soft: #59636e; --line: #818b98; --gutter: #eaeef2; --bar: #54aeff; --alert: #cf222e; --mark: #bc4c00;
  --t: #b6e3ff; --a: #aceebb; --g: #fae17d; --n: #e2c5ff; --p: #ffcce8; --a0: #0969da; --a1: #1a7f37; --a2: #8250df; --a3: #bf3989; --a4: #9a6700; --a5: #1b7c83 }
@media (prefers-color-scheme: dark) {
  svg { --paper: #0d1117; --ink: #f0f6fc; --soft: #9198a1; --line: #656c76; --gutter: #21262d; --bar: #1f6feb; --alert: #ff7b72; --mark: #ffa657;
    --t: #0c2d6b; --a: #04572f; --g: #693e00; --n: #4b2e83; --p: #772057; --a0: #58a6ff; --a1: #3fb950; --a2: #bc8cff; --a3: #f778ba; --a4: #d29922; --a5: #39c5cf } }
text { font: 11px ui-monospace, SFMono-Regular, Menlo, Consolas, "DejaVu Sans Mono", monospace; fill: var(--ink) }
.paper { fill: var(--paper) }
.head { font-size: 13px; font-weight: 600 }
.soft { fill: var(--soft) }
.number { fill: var(--soft) }
.alert { fill: var(--alert) }
.line line { stroke: var(--line); stroke-width: 1 }
.line.implicit line { stroke-dasharray: 2 3 }
.track .band { fill: none; stroke: var(--line); stroke-width: 0.5 }
.track.t .band { fill: var(--t) } .track.a .band { fill: var(--a) } .track.g .band { fill: var(--g) }
.track.n .band { fill: var(--n) } .track.p .band { fill: var(--p) }
.track.part .band { stroke: var(--ink); stroke-width: 1; stroke-dasharray: 3 2 }
.gutter { fill: var(--gutter) }
.shut { fill: url(#hatch) }
.hatch { stroke: var(--line); stroke-width: 1 }
.area rect { fill-opacity: 0.16; stroke-width: 1.5 }
.area.a0 rect { fill: var(--a0); stroke: var(--a0) } .area.a1 rect { fill: var(--a1); stroke: var(--a1) }
.area.a2 rect { fill: var(--a2); stroke: var(--a2) } .area.a3 rect { fill: var(--a3); stroke: var(--a3) }
.area.a4 rect { fill: var(--a4); stroke: var(--a4) } .area.a5 rect { fill: var(--a5); stroke: var(--a5) }
.place rect { fill: var(--bar); fill-opacity: 0.5; stroke: var(--bar) }
.place.off rect { fill: none; stroke: var(--alert); stroke-dasharray: 3 2 }
.place.off text { fill: var(--alert) }
.differs line, .differs rect, .differs .band { stroke: var(--mark); stroke-width: 2.5 }
.mark { fill: var(--mark); font-weight: 600 }
</style>
<defs><pattern id="hatch" width="5" height="5" patternUnits="userSpaceOnUse" patternTransform="rotate(45)"><rect class="gutter" width="5" height="5"/><line class="hatch" x1="0" y1="0" x2="0" y2="5"/></pattern></defs>
"#;
