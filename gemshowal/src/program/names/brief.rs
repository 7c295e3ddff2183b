//! The terms of OTP's messages without what all messages of a kind have: a call of `gen_server`, a
//! cast, a reply, and the messages by which a process is spawned.

use std::borrow::Cow;

/// Returns how a message is sent, and the term that is in it, or `None` if it is none of OTP's.
pub(super) fn brief(term: &str) -> Option<(Cow<'static, str>, &str)> {
    let inside = term.strip_prefix('{')?.strip_suffix('}')?;
    let plain = |way: &'static str| move |term| (Cow::Borrowed(way), term);
    call(inside)
        .map(plain("call "))
        .or_else(|| inside.strip_prefix("'$gen_cast',").map(plain("cast ")))
        .or_else(|| spawn(inside))
        .or_else(|| spawned(inside).map(plain("spawned ")))
        .or_else(|| after_tag(inside)?.strip_prefix(',').map(plain("reply ")))
}

fn call(inside: &str) -> Option<&str> {
    let caller = inside.strip_prefix("'$gen_call',{")?;
    after_tag(after_comma(caller)?)?.strip_prefix("},")
}

/// Reads `spawn_request,REF,PARENT,LEADER,{MODULE,FUNCTION,ARITY},[OPTION ..],..,ARGUMENTS`, of
/// which the arguments may be cut.
fn spawn(inside: &str) -> Option<(Cow<'static, str>, &str)> {
    let rest = after_reference(inside.strip_prefix("spawn_request,")?)?.strip_prefix(',')?;
    let (function, rest) = after_comma(after_comma(rest)?)?.strip_prefix('{')?.split_once('}')?;
    let [module, name, arity] = function.split(',').collect::<Vec<_>>().try_into().ok()?;
    let is_number = !arity.is_empty() && arity.bytes().all(|byte| byte.is_ascii_digit());
    is_number.then(|| match arguments(rest) {
        Some(arguments) => (format!("spawn {module}:{name}/{arity} ").into(), arguments),
        None => (format!("spawn {module}:{name}/{arity}").into(), ""),
    })
}

fn arguments(rest: &str) -> Option<&str> {
    let (_, rest) = rest.strip_prefix(",[")?.split_once("],")?;
    after_comma(rest)
}

fn spawned(inside: &str) -> Option<&str> {
    after_reference(inside.strip_prefix("spawn_reply,")?)?.strip_prefix(",ok,")
}

fn after_comma(text: &str) -> Option<&str> {
    Some(text.split_once(',')?.1)
}

fn after_reference(text: &str) -> Option<&str> {
    let (numbers, rest) = text.strip_prefix("#Ref<")?.split_once('>')?;
    numbers.bytes().all(|byte| byte.is_ascii_digit() || byte == b'.').then_some(rest)
}

/// Returns what follows the tag of a call: a reference, or one with an alias.
fn after_tag(text: &str) -> Option<&str> {
    match text.strip_prefix("[alias|") {
        Some(rest) => after_reference(rest)?.strip_prefix(']'),
        None => after_reference(text),
    }
}
