//! One page of HTML that needs nothing else: a drawing and the lines of each script.

use super::draw::draw;
use super::{sentence, Beside, Counts, Mark, Row};

const STYLE: &str = "
body { font: 15px/1.45 system-ui, sans-serif; color: #1f2328; background: #fff; margin: 28px 36px; }
h1 { font-size: 22px; margin: 0 0 2px; } h2 { font-size: 17px; margin: 34px 0 2px; }
p { margin: 2px 0 8px; } .quiet { color: #6b7280; }
.equal { color: #1a7f37; } .outside { color: #b42318; } .differs { color: #fff; background: #b42318; padding: 1px 8px; display: inline-block; }
.plot { overflow-x: auto; }
svg { font-family: system-ui, sans-serif; display: block; }
.ground { fill: #f7f8fa; } .grid { stroke: #dfe3e8; stroke-width: 1; } .ended { fill: #e3e6ea; }
.name { font-size: 15px; font-weight: 600; } .tick { font-size: 11px; fill: #6b7280; }
.frame { font: 10.5px ui-monospace, monospace; fill: #6b7280; } .label { fill: #1f2328; pointer-events: none; }
.twice { fill: none; stroke: #d1140c; stroke-width: 2.5; pointer-events: none; } .lead { fill: none; stroke: #d1140c; stroke-width: 1.5; }
.call { font-size: 13px; font-weight: 600; fill: #d1140c; } .thin { font-weight: 400; }
.left { stroke: #d1140c; stroke-width: 1.5; stroke-dasharray: 5 4; }
details { margin: 4px 0 0; } summary { color: #6b7280; cursor: pointer; }
table { border-collapse: collapse; font: 12.5px ui-monospace, monospace; margin-top: 6px; }
td, th { text-align: left; padding: 1px 16px 1px 0; vertical-align: top; font-weight: 400; }
th { color: #6b7280; } td.n { color: #6b7280; text-align: right; } td.long { max-width: 26ch; overflow-wrap: anywhere; }
tr.outside td { background: #fdecea; color: inherit; } tr.edition td { background: #eef4ff; } tr.differs td { background: #b42318; color: #fff; display: table-cell; padding: 1px 16px 1px 0; }
tr.apart td { color: #9aa1ab; } tr.note td { font-family: system-ui, sans-serif; color: #b42318; }
";

fn escaped(text: &str) -> String {
    let text = text.replace('&', "&amp;");
    text.replace('<', "&lt;").replace('>', "&gt;")
}

fn class(mark: Mark) -> &'static str {
    match mark {
        Mark::Equal => "",
        Mark::Outside => " class='outside'",
        Mark::Edition => " class='edition'",
        Mark::Differs => " class='differs'",
        Mark::Apart => " class='apart'",
    }
}

fn row(number: usize, row: &Row, out: &mut String) {
    out.push_str(&format!(
        "<tr{}><td class='n'>{number}<td>{}<td class='long'>{}<td class='long'>{}\n",
        class(row.mark),
        row.script,
        escaped(&row.old),
        escaped(&row.ours)
    ));
    for note in &row.notes {
        let note = escaped(note);
        out.push_str(&format!("<tr class='note'><td><td colspan='3'>{note}\n"));
    }
}

fn section(beside: &Beside, out: &mut String) {
    let tone = match (beside.fault(), beside.differs()) {
        (true, _) => "differs",
        (_, true) => "outside",
        _ => "equal",
    };
    out.push_str(&format!(
        "<h2>{}</h2>\n<p class='{tone}'>{}</p>\n",
        escaped(&beside.name),
        escaped(&sentence(beside))
    ));
    if beside.rows.is_empty() {
        return;
    }
    out.push_str(&format!("<div class='plot'>{}</div>\n", draw(beside)));
    let open = if beside.rows.len() <= 16 { " open" } else { "" };
    out.push_str(&format!("<details{open}><summary>line by line</summary>\n"));
    out.push_str("<table><tr><th><th>script<th>old<th>ours\n");
    if beside.titled() {
        row(0, &Row::title(), out);
    }
    for (place, one) in beside.rows.iter().enumerate() {
        row(beside.line(place), one, out);
    }
    out.push_str("</table></details>\n");
}

pub fn page(all: &[Beside], counts: &Counts) -> String {
    let mut out = format!(
        "<!doctype html><html lang='en'><meta charset='utf-8'><title>Old and ours</title><style>{STYLE}</style>\n\
         <h1>Who holds which slot</h1>\n<p>{counts}</p>\n\
         <p class='quiet'>Frames from left to right, slots from below; a bar is an allocation, by its handle. Long runs are drawn lower than they are.</p>\n"
    );
    for beside in all {
        section(beside, &mut out);
    }
    out
}
