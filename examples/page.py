"""The page of examples/report: HTML of texts. Each text is escaped here, and nowhere else."""
import html

STYLE = '''
:root { color-scheme: light dark; --paper: #fbfaf8; --card: #fff; --ink: #1d2126; --soft: #5b6570; --line: #dcdfe3;
  --asked: #4a7ab5; --refused: #b3361f; --tint: #fbe9e4; --chip: #eef1f4; }
@media (prefers-color-scheme: dark) { :root { --paper: #14171b; --card: #1c2026; --ink: #e4e7ea; --soft: #9ba6b1;
  --line: #343b43; --asked: #7fa8dc; --refused: #ff8a70; --tint: #3a211b; --chip: #2a3037; } }
* { box-sizing: border-box; }
html { -webkit-text-size-adjust: 100%; }
body { margin: 0 auto; max-width: 76rem; padding: 1.5rem clamp(1rem, 4vw, 3rem) 4rem; background: var(--paper);
  color: var(--ink); font: 1rem/1.5 system-ui, -apple-system, "Segoe UI", Roboto, "DejaVu Sans", sans-serif; }
h1 { font-size: clamp(1.5rem, 4vw, 2.1rem); line-height: 1.2; margin: 0 0 .5rem; }
h2 { font-size: 1.3rem; line-height: 1.3; margin: 3rem 0 .4rem; }
h3 { font-size: 1.05rem; line-height: 1.4; margin: 2rem 0 .6rem; }
p { margin: .3rem 0 .8rem; max-width: 46rem; }
code, .mono { font-family: ui-monospace, "DejaVu Sans Mono", Menlo, Consolas, monospace; font-size: .88em; }
code, dd, li { overflow-wrap: anywhere; }
td { overflow-wrap: break-word; }
a { color: inherit; text-decoration-color: var(--soft); text-underline-offset: .2em; }
.soft, figcaption { color: var(--soft); }
.small { font-size: .88rem; }
.chip { background: var(--chip); border-radius: .35rem; padding: .05rem .4rem; font-size: .92em;
  overflow-wrap: anywhere; -webkit-box-decoration-break: clone; box-decoration-break: clone; }
.gate { display: inline-block; min-width: 2.4rem; text-align: center; font-weight: 600; }
.no { color: var(--refused); font-weight: 600; }
.tiles { display: grid; grid-template-columns: repeat(auto-fit, minmax(8.5rem, 1fr)); gap: .75rem; margin: 1.5rem 0; }
.tile { background: var(--card); border: 1px solid var(--line); border-radius: .6rem; padding: .7rem .9rem; }
.tile b { display: block; font-size: 1.6rem; line-height: 1.2; font-variant-numeric: tabular-nums; }
.tile span { color: var(--soft); font-size: .88rem; }
.alarm { border: 1px solid var(--refused); border-left-width: .4rem; background: var(--tint); border-radius: .4rem;
  padding: .6rem .9rem; margin: 1rem 0; }
dl.files { display: grid; grid-template-columns: max-content 1fr; gap: .15rem .9rem; margin: 1rem 0;
  font-size: .92rem; }
dl.files dt { color: var(--soft); }
dl.files dd { margin: 0; }
.wide { overflow-x: auto; }
table { border-collapse: collapse; width: 100%; font-size: .94rem; }
th { text-align: left; font-weight: 600; color: var(--soft); font-size: .85rem; vertical-align: bottom; }
th, td { padding: .45rem .8rem .45rem 0; border-bottom: 1px solid var(--line); }
td { vertical-align: top; }
td.n, th.n { text-align: right; font-variant-numeric: tabular-nums; white-space: nowrap; }
td:last-child, th:last-child { padding-right: 0; }
td.n + td:not(.n), th.n + th:not(.n) { padding-left: 1.2rem; }
.whole { white-space: nowrap; }
table.grid td:first-child { white-space: nowrap; }
tr.none td { color: var(--soft); }
figure { margin: 1rem 0; }
.lane { display: grid; grid-template-columns: 13rem 1fr; gap: .8rem; align-items: end; padding: .3rem 0;
  border-bottom: 1px solid var(--line); font-size: .9rem; }
.lane svg { display: block; width: 100%; height: 2.6rem; }
.lane .soft { display: block; line-height: 1.3; }
.ends { display: flex; justify-content: space-between; gap: 1rem; margin-left: 13.8rem; }
.asked { fill: var(--asked); }
.refused { fill: var(--refused); }
.key::before { content: ""; display: inline-block; width: .8em; height: .8em; margin: 0 .4em 0 0; border-radius: .15em;
  background: var(--asked); }
.key.bad::before { background: var(--refused); }
.key + .key { margin-left: 1.2rem; }
.card { background: var(--card); border: 1px solid var(--line); border-radius: .6rem; padding: .8rem 1rem;
  margin: .8rem 0; }
.card header { display: flex; flex-wrap: wrap; gap: .1rem 1rem; align-items: baseline; }
.card p { margin: .3rem 0; }
.card ol { margin: .5rem 0 .2rem; padding-left: 1.7rem; }
.card li { padding: .1rem .4rem; border-radius: .3rem; }
.card li::marker { color: var(--soft); font-variant-numeric: tabular-nums; }
.card li.bad { background: var(--tint); }
.card li.unrun { color: var(--soft); }
@media screen and (max-width: 52rem) {
  table.stack thead { display: none; }
  table.stack tr { display: block; padding: .5rem 0; border-bottom: 1px solid var(--line); }
  table.stack td, table.stack td.n + td:not(.n) { display: grid; grid-template-columns: 7rem 1fr; gap: .6rem; border: 0;
    padding: .12rem 0; text-align: left; white-space: normal; }
  table.stack td::before { content: attr(data-name); color: var(--soft); font-size: .85rem; }
  table.rules thead { display: none; }
  table.rules tr { display: grid; grid-template-columns: 3rem 1fr 2.6rem; padding: .45rem 0;
    border-bottom: 1px solid var(--line); }
  table.rules td, table.rules td.n + td:not(.n) { border: 0; padding: 0; }
  table.rules td:last-child { grid-column: 2 / -1; }
  table.rules tr.none td:last-child { display: none; }
  dl.files { grid-template-columns: 1fr; }
  dl.files dd { margin-bottom: .4rem; }
  .lane { grid-template-columns: 1fr; gap: .2rem; align-items: start; }
  .ends { margin-left: 0; }
}
@media print {
  :root { color-scheme: light; --paper: #fff; --card: #fff; --ink: #000; --soft: #444; --line: #bbb; --asked: #777;
    --refused: #000; --tint: #eee; --chip: #eee; }
  @page { margin: 15mm; }
  html { font-size: 9pt; }
  body { max-width: none; padding: 0; }
  * { print-color-adjust: exact; -webkit-print-color-adjust: exact; }
  h2, h3, h2 + p, h3 + p { break-after: avoid; }
  .card, .tile, .lane, tr { break-inside: avoid; }
  .wide { overflow: visible; }
  a { text-decoration: none; }
}
'''


class Html(str):
    """Text that is HTML already."""


def safe(text):
    return text if isinstance(text, Html) else html.escape(str(text))


def element(name, *inner, **attributes):
    told = ''.join(' %s="%s"' % (key.rstrip('_').replace('_', '-'), html.escape(str(value)))
                   for key, value in attributes.items() if value is not None)
    return Html('<%s%s>%s</%s>' % (name, told, ''.join(map(safe, inner)), name))


def joined(parts, between=''):
    return Html(safe(between).join(map(safe, parts)))


def code(text):
    return element('code', element('bdi', text))


def chip(text, **attributes):
    return element('span', text, class_='chip', **attributes)


def table(heads, rows, kind='stack', faint=()):
    """A table. A head that begins with `#` is of numbers. On a phone the kind `stack` has a line for each cell, `rules`
    has the last cell of a row below the others, and `grid` is scrolled."""
    names = [head.lstrip('#') for head in heads]
    numbers = ['n' if head.startswith('#') else None for head in heads]
    top = element('tr', *(element('th', name, class_=number, scope='col') for name, number in zip(names, numbers)))
    body = []
    for place, row in enumerate(rows):
        cells = (element('td', element('span', cell), class_=number, data_name=name)
                 for cell, name, number in zip(row, names, numbers))
        body.append(element('tr', *cells, class_='none' if place in faint else None))
    inner = element('table', element('thead', top), element('tbody', *body), class_=kind)
    return element('div', inner, class_='wide')


def bar(kind, part, top, height):
    return '<rect class="%s" x="%d" y="%.1f" width="8" height="%.1f"/>' % (kind, 10 * part + 1, top, height)


def bars(asked, refused, most):
    """A lane of the time: of each part how many were asked, and below how many of them were refused."""
    parts = []
    for place, (all_, bad) in enumerate(zip(asked, refused)):
        if not all_:
            continue
        # A part in which there is anything shows it, however little that is.
        high = max(100 * all_ / most, 8)
        low = max(high * bad / all_, 8) if bad else 0
        high = max(high, low + 8) if all_ > bad else high
        parts.append(bar('asked', place, 100 - high, high - low))
        if bad:
            parts.append(bar('refused', place, 100 - low, low))
    return Html('<svg viewBox="0 0 %d 100" preserveAspectRatio="none" aria-hidden="true">%s</svg>'
                % (10 * len(asked), ''.join(parts)))


def page(title, *inner):
    head = element('head', Html(
        '<meta charset="utf-8"><meta name="viewport" content="width=device-width, initial-scale=1">'
        '<meta name="color-scheme" content="light dark"><meta name="referrer" content="no-referrer">'
        '<meta http-equiv="Content-Security-Policy" content="default-src \'none\'; style-src \'unsafe-inline\'">'),
        element('title', title), Html('<style>%s</style>' % STYLE))
    return '<!DOCTYPE html>\n' + element('html', head, element('body', element('main', *inner)), lang='en') + '\n'
