//! What the original does where no script reaches: all that a need can be asked, and a run that is refused midway.

use super::{Address, Any, Ctxt, Linear, ScopeHandle, Scopes};
use crate::alloc::Vec as List;
use crate::ast::Span;
use crate::compile::Result;
use crate::runtime::InstAddress;
use crate::SourceId;

static SPAN: Span = Span;

fn fresh() -> Scopes<'static> {
    Scopes::new(SourceId).expect("growth never fails here")
}

fn drained(scopes: &Scopes<'static>) -> Vec<usize> {
    let mut out = List::new();
    let done = scopes.drain_dangling_into(&mut out);
    done.expect("growth never fails here");
    out.iter().map(InstAddress::offset).collect()
}

/// A run of two addresses, the first of which the top doesn't own: the refusal, and what dangles after it.
pub fn run_refused_midway() -> (String, Vec<usize>) {
    let scopes = fresh();
    let owned = scopes.alloc(&SPAN).expect("a slot");
    let not_owned = Address::local(&SPAN, &scopes, InstAddress::new(9));
    let mut list = List::new();
    for address in [not_owned, owned] {
        list.try_push(address).expect("growth never fails here");
    }
    let refusal = Linear::new(list).free().expect_err("9 isn't owned");
    (refusal.0, drained(&scopes))
}

/// A scope is popped by its number after another took its index: the refusal, and whether the other can still allocate.
pub fn pop_refused() -> (String, bool) {
    let scopes = fresh();
    let first = scopes.child(&SPAN).expect("a scope");
    let again = ScopeHandle { id: first.id };
    scopes.pop(&SPAN, first).expect("it is live");
    let _second = scopes.child(&SPAN).expect("a scope");
    let refusal = scopes.pop(&SPAN, again).expect_err("it is closed");
    let allocates = scopes.alloc(&SPAN).is_ok();
    (refusal.0, allocates)
}

/// A need: deferred in root, assigned 5, deferred and allocated, or ignored.
fn need<'a>(kind: &str, scopes: &'a Scopes<'static>) -> Any<'a, 'static> {
    let mut need = match kind {
        "assigned" => Any::assigned(&SPAN, scopes, InstAddress::new(5)),
        "ignore" => Any::ignore(&SPAN),
        _ => Any::defer(scopes, scopes.top_id(), &SPAN),
    };
    if kind == "scope" {
        need.try_alloc_addr().expect("a slot");
    }
    need
}

fn said<T>(result: Result<T>, show: impl FnOnce(T) -> String) -> String {
    result.map_or("refused".into(), show)
}

fn offset(address: &Address<'_, '_>) -> String {
    address.addr().offset().to_string()
}

/// "Defer becomes Assigned x; an Address other than x answers "copy x to it"; else nothing"
fn assigned(mut need: Any<'_, 'static>, from: usize) -> String {
    let mut cx = Ctxt::default();
    let done = need.assign_addr(&mut cx, InstAddress::new(from));
    done.expect("instructions are always taken");
    match cx.asm.0.first() {
        Some(copy) => format!("{copy:?}"),
        None => said(need.output(), |o| format!("{o:?}")),
    }
}

fn asked(kind: &str, question: &str) -> String {
    let scopes = fresh();
    let mut need = need(kind, &scopes);
    let none = || "none".to_string();
    match question {
        "output" => said(need.output(), |o| format!("{o:?}")),
        "addr" => said(need.addr(), offset),
        "try_as_addr" => said(need.try_as_addr(), |a| a.map_or_else(none, offset)),
        "alloc" => said(need.try_alloc_addr(), |a| {
            a.map_or_else(none, |a| offset(a))
        }),
        "alloc_output" => said(need.alloc_output(), |o| format!("{o:?}")),
        "assign 5" => assigned(need, 5),
        "assign 6" => assigned(need, 6),
        "into_addr" => said(need.into_addr(), |a| offset(&a)),
        _ => {
            let freed = said(need.free(), |()| "freed".into());
            format!("{freed}, dangling {:?}", drained(&scopes))
        }
    }
}

/// The original's answer to each question about each kind of need.
pub fn needs() -> Vec<String> {
    let questions = [
        "output",
        "addr",
        "try_as_addr",
        "alloc",
        "alloc_output",
        "assign 5",
        "assign 6",
        "into_addr",
        "free",
    ];
    let mut table = Vec::new();
    for kind in ["defer", "assigned", "scope", "ignore"] {
        for question in questions {
            table.push(format!("{kind}, {question}: {}", asked(kind, question)));
        }
    }
    table
}
