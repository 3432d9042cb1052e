//! What the classes and patterns of the map look like (docs/PROGRAMS.md, "The map", 2): the
//! same in every picture.

pub const LOOKS: &str = r##"<style>svg{background:#fff}text{font:.9px sans-serif;fill:#222}.l{text-anchor:end}.t{text-anchor:middle}.h{font-size:1.1px}.n{fill:url(#n)}.a{fill:#bfe3c6}.g{fill:url(#g)}.s{fill:url(#s)}.o{fill:url(#o)}.u{fill:url(#u)}.x{fill:url(#x)}.mo{font-weight:bold;fill:#a00}.ms{fill:#777}.mu{fill:#853}</style>
<defs>
<pattern id="n" width="1" height="1" patternUnits="userSpaceOnUse"><path d="M0 0h1v1H0z" fill="#fff"/><path d="M0 1L1 0" stroke="#aaa" stroke-width=".08"/></pattern>
<pattern id="g" width="5" height="5" patternUnits="userSpaceOnUse"><path d="M0 0H5M0 0V5" stroke="#fff" stroke-width=".12"/></pattern>
<pattern id="s" width="1" height="1" patternUnits="userSpaceOnUse"><path d="M0 0h1v1H0z" fill="#fff"/><circle cx=".5" cy=".5" r=".2" fill="#246"/></pattern>
<pattern id="o" width="1" height="1" patternUnits="userSpaceOnUse"><path d="M0 0h1v1H0z" fill="#a00"/><path d="M.2 .2L.8 .8M.8 .2L.2 .8" stroke="#fff" stroke-width=".16"/></pattern>
<pattern id="u" width="1" height="1" patternUnits="userSpaceOnUse"><path d="M0 0h1v1H0z" fill="#f5b83d"/><path d="M0 .25H1M0 .75H1" stroke="#743" stroke-width=".16"/></pattern>
<pattern id="x" width="1" height="1" patternUnits="userSpaceOnUse"><path d="M0 0h1v1H0z" fill="#bfe3c6"/><path d="M0 .5H1" stroke="#c80" stroke-width=".3"/></pattern>
</defs>
"##;
