"""The page that report.py writes: one file of HTML with tables that a click on a column sorts, bars as SVG, and no
script, font or picture from elsewhere. Bars round to the screen; the numbers beside them do not."""

from html import escape

from loads import rounded_down, rounded_up

GOOD, BAD, BLUE = "#1d7a3a", "#b3261e", "#4477aa"
HOPS = [BLUE, "#66ccee", "#228833", "#ccbb44", "#ee6677", "#aa3377", "#777777", "#0f4c75"]
STYLE = """
:root { --ink: #1c2430; --soft: #5b6675; --line: #d9dee5; --good: #1d7a3a; --bad: #b3261e; --bar: #4477aa; }
* { box-sizing: border-box; }
body { margin: 0 auto; max-width: 72rem; padding: 2rem 1.5rem 4rem; color: var(--ink);
  font: 15px/1.45 system-ui, "Segoe UI", "DejaVu Sans", sans-serif; }
h1 { font-size: 1.5rem; margin: 0 0 .75rem; overflow-wrap: anywhere; }
h2 { font-size: 1.1rem; margin: 2.25rem 0 .25rem; }
p { margin: .25rem 0 .75rem; }
.stand { display: inline-block; font-size: 1.15rem; font-weight: 600; padding: .45rem .9rem; border-radius: .4rem;
  color: #fff; background: var(--good); }
.stand.bad { background: var(--bad); }
.from { color: var(--soft); font: 12px/1.6 ui-monospace, "DejaVu Sans Mono", monospace; overflow-wrap: anywhere;
  margin-top: .9rem; }
.odd { border-left: .3rem solid #c98a00; background: #fff6e0; padding: .6rem 1rem; margin-top: 1.25rem; }
.odd ul { margin: .3rem 0 0; padding-left: 1.1rem; }
.note { color: var(--soft); font-size: .87rem; max-width: 60rem; }
table { border-collapse: collapse; width: 100%; margin-top: .5rem; }
th, td { text-align: right; padding: .28rem .6rem; border-bottom: 1px solid var(--line); white-space: nowrap;
  font-variant-numeric: tabular-nums; }
th { font-size: .82rem; font-weight: 600; color: var(--soft); border-bottom: 2px solid var(--line);
  vertical-align: bottom; }
th [role=button] { cursor: pointer; }
th [role=button]:hover, th [role=button]:focus-visible { color: var(--ink); text-decoration: underline; }
th[aria-sort=ascending] [role=button]::after { content: " \\25b2"; font-size: .7em; }
th[aria-sort=descending] [role=button]::after { content: " \\25bc"; font-size: .7em; }
td.name, th.name, td.words, th.words { text-align: left; }
td.name { font-family: ui-monospace, "DejaVu Sans Mono", monospace; font-size: .9em; }
td.words { white-space: normal; color: var(--soft); font-size: .9em; }
td.bar, th.bar { text-align: left; padding-left: 0; }
td.exact { white-space: normal; overflow-wrap: anywhere; color: var(--soft); font-size: .78em; max-width: 17rem; }
.PASS { color: var(--good); font-weight: 600; }
.FAIL { color: #fff; background: var(--bad); font-weight: 600; border-radius: .25rem; padding: 0 .35rem; }
svg { vertical-align: middle; }
details { border-bottom: 1px solid var(--line); padding: .35rem 0; }
summary { cursor: pointer; display: flex; gap: .8rem; align-items: center; }
summary::before { content: "\\25b8"; color: var(--soft); }
details[open] summary::before { content: "\\25be"; }
summary .name { flex: 0 0 14rem; font-family: ui-monospace, "DejaVu Sans Mono", monospace; font-size: .9em;
  overflow-wrap: anywhere; }
summary .bound { flex: 0 0 8rem; text-align: right; font-variant-numeric: tabular-nums; }
details table { width: auto; margin: .4rem 0 .6rem 1.6rem; }
.swatch { display: inline-block; width: .7rem; height: .7rem; margin-right: .45rem; border-radius: .12rem; }
.sign { display: none; }
@media print {
  @page { size: A4 landscape; margin: 12mm; }
  body { padding: 0; max-width: none; font-size: 10.5px; }
  * { print-color-adjust: exact; -webkit-print-color-adjust: exact; }
  tr, details { break-inside: avoid; }
  thead { display: table-header-group; }
  .sign { display: flex; gap: 4rem; margin-top: 2.5rem; }
  .sign span { flex: 1; border-top: 1px solid var(--ink); padding-top: .25rem; }
}
"""
SCRIPT = """
function sorted(event) {
  if (event.type === "keydown" && event.key !== "Enter") return;
  const button = event.currentTarget;
  const head = button.closest("th"), body = head.closest("table").tBodies[0], place = head.cellIndex;
  const up = head.getAttribute("aria-sort") !== "ascending";
  for (const other of head.parentNode.cells) other.removeAttribute("aria-sort");
  head.setAttribute("aria-sort", up ? "ascending" : "descending");
  const value = row => row.cells[place].dataset.v;
  const is_word = text => text === "" || isNaN(text);
  const before = (a, b) => is_word(a) || is_word(b) ? a.localeCompare(b, "en", { numeric: true }) : a - b;
  body.append(...[...body.rows].sort((a, b) => (up ? 1 : -1) * before(value(a), value(b))));
}
for (const button of document.querySelectorAll("th [role=button]"))
  for (const what of ["click", "keydown"]) button.addEventListener(what, sorted);
"""


def cell(text, value="", kind=""):
    """A cell with the value by which its column is sorted."""
    return f'<td class="{kind}" data-v="{escape(str(value))}">{text}</td>'


def number_cell(value, how=rounded_up):
    """A cell of a number that is shown as a decimal; `none` where there is none, which sorts above all."""
    return cell("none", "Infinity") if value is None else cell(escape(how(value)), float(value))


def heads(columns):
    """The head of a table. A column can be sorted, but for one without a name and for that of exact bounds."""
    cells = (
        f'<th class="{kind}" scope="col">'
        + (name if kind == "exact" or not name else f'<span role="button" tabindex="0">{name}</span>')
        + "</th>"
        for name, kind in columns
    )
    return f"<thead><tr>{''.join(cells)}</tr></thead>"


def table(columns, rows):
    return f"<table>{heads(columns)}<tbody>{''.join(f'<tr>{row}</tr>' for row in rows)}</tbody></table>"


def bar(share, colour, width=150, mark=None, told=None):
    """A bar of a share of the width, and an upright line at a mark; what is told of it to who cannot see it is the
    share, where nothing else is."""
    filled = max(0, min(1, float(share))) * width
    line = (
        ""
        if mark is None
        else f'<line x1="{mark * width:.1f}" x2="{mark * width:.1f}" y1="0" y2="14" stroke="#1c2430"/>'
    )
    return (
        f'<svg width="{width}" height="14" role="img" aria-label="{float(share if told is None else told):.2f}">'
        f'<rect width="{width}" height="8" y="3" fill="#eef1f4"/>'
        f'<rect width="{filled:.1f}" height="8" y="3" fill="{colour}"/>{line}</svg>'
    )


def bound_bar(flow, largest):
    """A flow's bound: of its deadline, which a line marks at four fifths; without one of the largest bound, in grey."""
    if flow.bound is None:
        return bar(1, BAD)
    if flow.deadline is None:
        return bar(flow.bound / largest if largest else 0, "#a9b3c1")
    colour = GOOD if flow.verdict == "PASS" else BAD
    if not flow.deadline:  # of nothing there is no share
        return bar(1, colour)
    share = flow.bound / flow.deadline
    return bar(share * 4 / 5, colour, mark=0.8, told=share)


def flow_rows(flows):
    """The rows of the table of flows."""
    largest = max((flow.bound for flow in flows if flow.bound is not None), default=0)
    for flow in flows:
        verdict = f'<span class="{flow.verdict}">{flow.verdict}</span>' if flow.verdict else ""
        share = flow.bound / flow.deadline if flow.bound is not None and flow.deadline else ""
        yield (
            cell(escape(flow.name), flow.name, "name")
            + number_cell(flow.bound)
            + cell(bound_bar(flow, largest), float(share) if share != "" else "", "bar")
            + (cell("") if flow.deadline is None else number_cell(flow.deadline, rounded_down))
            + cell(verdict, flow.verdict)
            + (cell("") if flow.slack is None else number_cell(flow.slack, rounded_down))
            + cell("none" if flow.bound is None else escape(str(flow.bound)), "", "exact")
        )


def port_rows(ports):
    """The rows of the table of ports."""
    most = max((port.delay for port in ports if port.delay is not None), default=0)
    for port in ports:
        over = port.load is None or port.load > 1
        known = port.delay is not None
        yield (
            cell(escape(port.name), port.name, "name")
            + number_cell(port.load)
            + cell(bar(1 if over else port.load, BAD if over else BLUE, 110), "", "bar")
            + number_cell(port.delay)
            + cell(bar(port.delay / most if known and most else int(not known), BLUE if known else BAD), "", "bar")
            + number_cell(port.bytes, str)
        )


def stacked(hops, width=420):
    """A bar with a part for each hop."""
    parts, left = [], 0.0
    for place, hop in enumerate(hops):
        wide = float(hop.share or 0) * width
        colour = HOPS[place % len(HOPS)]
        parts.append(
            f'<rect x="{left:.1f}" width="{wide:.1f}" height="14" fill="{colour}">'
            f"<title>{escape(hop.place)}</title></rect>"
        )
        left += wide
    return f'<svg width="{width}" height="14" role="img" aria-label="shares of the delay">{"".join(parts)}</svg>'


def hop_rows(hops):
    """The rows of a flow's parts of its delay."""
    for place, hop in enumerate(hops):
        swatch = f'<span class="swatch" style="background:{HOPS[place % len(HOPS)]}"></span>'
        most = ", ".join(f"{escape(name)} {round(100 * share)} %" for name, share in hop.most)
        share = "" if hop.share is None else f"{round(100 * hop.share)} %"
        yield (
            cell(swatch + escape(hop.place), hop.place, "name")
            + number_cell(hop.delay)
            + cell(share, float(hop.share or 0))
            + cell(most, "", "words")
        )


def parts(flow):
    """What a flow's delay is made of: its bar, and a table below it."""
    columns = [("port", "name"), ("delay bound, µs", ""), ("share", ""), ("brings most bits at once", "words")]
    bound = "none" if flow.bound is None else rounded_up(flow.bound)
    return (
        f'<details><summary><span class="name">{escape(flow.name)}</span><span class="bound">{bound} µs</span>'
        f"{stacked(flow.hops)}</summary>{table(columns, hop_rows(flow.hops))}</details>"
    )


def odd(findings):
    """The findings on top."""
    lines = "".join(f"<li>{escape(line)}</li>" for line in findings)
    return f'<div class="odd"><strong>Lawful, and hardly meant</strong><ul>{lines}</ul></div>' if findings else ""


def page(report):
    """The page of a report."""
    from report import by_delay, by_slack  # at its call, since that module names this one

    flows = sorted(report.flows, key=by_slack)
    columns = [("flow", "name"), ("bound, µs", ""), ("of its deadline", "bar"), ("deadline, µs", ""), ("verdict", "")]
    columns += [("slack, µs", ""), ("exact bound, µs", "exact")]
    ports = [("port:queue", "name"), ("load", ""), ("", "bar"), ("delay, µs", ""), ("", "bar"), ("buffer, bytes", "")]
    shares = [parts(flow) for flow in flows if flow.hops]
    title = escape(report.head[0].partition(",")[0].removeprefix("network "))
    body = [
        f"<h1>Worst-case delays: {title}</h1>",
        f'<div class="stand{" bad" if report.failed() else ""}">{escape(report.told())}</div>',
        f'<div class="from">{"<br>".join(escape(line) for line in report.head)}</div>',
        odd(report.findings),
        "<h2>Flows</h2>",
        '<p class="note">No packet of the flow takes longer than its bound, from its entry to the end of its last '
        "link, in any run that keeps what the file promises. "
        "Bounds are rounded up, slacks down; the exact bound stands last. The upright line marks the deadline.</p>",
        table(columns, flow_rows(flows)),
        "<h2>Ports</h2>",
        '<p class="note">The load is what flows ask for in the long run over what they are promised, at a priority '
        "server with those of the queues before; no packet stays longer than the delay, and the queue never holds more "
        "bytes.</p>",
        table(ports, port_rows(sorted(report.ports, key=by_delay))),
    ]
    if shares:
        body += [
            "<h2>Where each delay comes from</h2>",
            '<p class="note">The delay bounds of the ports on the way, in their order, and of the links together. '
            "Click a flow for the numbers, and for the flows that may bring most bits at once to each port.</p>",
            *shares,
        ]
    body.append('<div class="sign"><span>Checked by</span><span>Date</span></div>')
    head = f'<meta charset="utf-8"><meta name="viewport" content="width=device-width"><title>{title}</title>'
    head = f'<html lang="en"><head>{head}<style>{STYLE}</style></head>'
    return f'<!DOCTYPE html>\n{head}<body>{"".join(body)}<script>{SCRIPT}</script></body></html>\n'
