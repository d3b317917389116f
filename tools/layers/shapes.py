"""Shapes and text of the picture."""

STYLE = """
text { font-family: sans-serif; font-size: 12px; fill: #1f2933; }
.page { fill: #ffffff; stroke: #d5d2c8; }
.band { fill: #f4f2ec; }
.title { font-size: 16px; font-weight: bold; }
.name { font-weight: bold; }
.note { font-size: 11px; fill: #3d4754; }
.code { font-family: monospace; }
.middle { text-anchor: middle; }
.loader { fill: #9cc9ee; }
.claim { fill: #fac564; }
.program { fill: #dcdad2; }
.data { fill: #ffffff; stroke: #1f2933; stroke-width: 1.3; }
.arrow { fill: none; stroke: #6b7280; stroke-width: 1.2; marker-end: url(#head); }
.back { fill: none; stroke: #1f2933; stroke-width: 1.6; marker-end: url(#head); }
"""
HEAD = '<defs><marker id="head" viewBox="0 0 8 8" refX="7.5" refY="4" markerWidth="8" markerHeight="8" orient="auto" ' \
       'markerUnits="userSpaceOnUse"><path d="M0 0.5L8 4L0 7.5z" fill="#1f2933" /></marker></defs>'


def rect(kind, x, y, width, height):
    return f'<rect class="{kind}" x="{x:g}" y="{y:g}" width="{width}" height="{height}" rx="4" />'


def text(kind, x, y, words):
    return f'<text class="{kind}" x="{x:g}" y="{y:g}">{words}</text>'


def path(kind, places):
    return f'<path class="{kind}" d="{places}" />'
